//! Programs written row by row: each form takes the next name and the next row,
//! and the rows inside a form stand before its rest.

use crate::reference::document::{Bind, Branch, Document, Form, Name, Row};

/// A program as far as it is written.
#[derive(Default)]
pub struct Written {
    rows: Vec<Row>,
    names: usize,
}

impl Written {
    pub fn new() -> Written {
        Written::default()
    }

    /// The program, without tables and claims.
    pub fn document(self) -> Document {
        Document {
            rows: self.rows,
            ..Document::default()
        }
    }

    fn name(&mut self) -> Name {
        self.names += 1;
        self.names - 1
    }

    fn next_row(&self) -> usize {
        self.rows.len()
    }

    /// A bind of a new name, what the form holds, and then the rest.
    fn bind_around(&mut self, form: Form, inside: impl FnOnce(&mut Written, &mut Form)) -> Name {
        let name = self.name();
        let row = self.next_row();
        self.rows.push(Row::Result(name));
        let mut form = form;
        inside(self, &mut form);
        let rest = self.next_row();
        self.rows[row] = Row::Bind(Bind { name, form, rest });
        name
    }

    /// A bind with a form that holds no rows.
    pub fn bind(&mut self, form: Form) -> Name {
        self.bind_around(form, |_, _| {})
    }

    pub fn result(&mut self, name: Name) {
        self.rows.push(Row::Result(name));
    }

    pub fn unit(&mut self) -> Name {
        self.bind(Form::Unit)
    }

    pub fn chan(&mut self) -> Name {
        self.bind(Form::Chan)
    }

    /// A send event and a sync on it; the name of the sync.
    pub fn send(&mut self, channel: Name, message: Name) -> Name {
        let event = self.bind(Form::Send { channel, message });
        self.bind(Form::Sync { event })
    }

    /// A recv event and a sync on it; the name of what is received.
    pub fn receive(&mut self, channel: Name) -> Name {
        let event = self.bind(Form::Recv { channel });
        self.bind(Form::Sync { event })
    }

    pub fn apply(&mut self, function: Name, argument: Name) -> Name {
        self.bind(Form::Apply { function, argument })
    }

    /// A spawn of a thread, which must end in a result.
    pub fn spawn(&mut self, thread: impl FnOnce(&mut Written)) -> Name {
        let row = self.next_row() + 1;
        self.bind_around(Form::Spawn { row }, |inside, _| thread(inside))
    }

    /// A function; its body is given the function's own name and the parameter,
    /// and must end in a result.
    pub fn fun(&mut self, body: impl FnOnce(&mut Written, Name, Name)) -> Name {
        let form = Form::Fun {
            own: self.name(),
            parameter: self.name(),
            body: self.next_row() + 1,
        };
        self.bind_around(form, |inside, form| {
            if let Form::Fun { own, parameter, .. } = *form {
                body(inside, own, parameter);
            }
        })
    }

    /// A case; each branch is given the name of what it receives, and must end
    /// in a result.
    pub fn case(
        &mut self,
        subject: Name,
        left: impl FnOnce(&mut Written, Name),
        right: impl FnOnce(&mut Written, Name),
    ) -> Name {
        let mut branch = || Branch {
            name: self.name(),
            row: 0,
        };
        let form = Form::Case {
            subject,
            left: branch(),
            right: branch(),
        };
        self.bind_around(form, |inside, form| {
            if let Form::Case {
                left: one,
                right: other,
                ..
            } = form
            {
                one.row = inside.next_row();
                left(inside, one.name);
                other.row = inside.next_row();
                right(inside, other.name);
            }
        })
    }
}
