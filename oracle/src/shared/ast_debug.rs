//! SHIM: printing for debugging; the driver never uses it.
use move_ir_types::location::Spanned;

pub trait AstDebug {
    fn ast_debug(&self, w: &mut AstWriter);
}

impl<T: AstDebug> AstDebug for Spanned<T> {
    fn ast_debug(&self, w: &mut AstWriter) {
        self.value.ast_debug(w)
    }
}

pub struct AstWriter(pub String);

impl AstWriter {
    pub fn write(&mut self, s: &str) {
        self.0.push_str(s)
    }
    pub fn writeln(&mut self, s: &str) {
        self.write(s);
        self.new_line()
    }
    pub fn new_line(&mut self) {
        self.0.push('\n')
    }
    pub fn indent<F: FnOnce(&mut AstWriter)>(&mut self, _n: usize, f: F) {
        f(self)
    }
    pub fn block<F: FnOnce(&mut AstWriter)>(&mut self, f: F) {
        self.write(" {\n");
        f(self);
        self.write("\n}\n")
    }
    pub fn annotate_gen<F: FnOnce(&mut AstWriter), Annot, FAnnot: FnOnce(&mut AstWriter, &Annot)>(
        &mut self,
        f: F,
        annot: &Annot,
        annot_f: FAnnot,
    ) {
        self.write("(");
        f(self);
        self.write(": ");
        annot_f(self, annot);
        self.write(")")
    }
    pub fn list<I: IntoIterator, F: FnMut(&mut AstWriter, I::Item) -> bool>(&mut self, items: I, sep: &str, mut f: F) {
        let mut first = true;
        for i in items {
            if !first {
                self.write(sep)
            }
            first = false;
            if f(self, i) {
                self.new_line()
            }
        }
    }
    pub fn comma<I: IntoIterator, F: FnMut(&mut AstWriter, I::Item)>(&mut self, items: I, mut f: F) {
        self.list(items, ", ", |w, i| {
            f(w, i);
            false
        })
    }
    pub fn semicolon<I: IntoIterator, F: FnMut(&mut AstWriter, I::Item)>(&mut self, items: I, mut f: F) {
        self.list(items, ";", |w, i| {
            f(w, i);
            true
        })
    }
}
