//! Children that end with this program, whatever ends it: they share a group of processes with a shell that waits on
//! a pipe held here. Where the pipe closes without a word, the shell ends the group.
use std::{
    io::{Result, Write},
    os::unix::process::CommandExt,
    process::{Child, Command, Stdio},
};

pub struct Watch {
    shell: Child,
}

const SCRIPT: &str = "trap '' HUP INT TERM; read -r over || kill -TERM 0";

impl Watch {
    pub fn start() -> Result<Watch> {
        let mut shell = Command::new("sh");
        shell.args(["-c", SCRIPT]).stdin(Stdio::piped()).stdout(Stdio::null()).stderr(Stdio::null());
        Ok(Watch { shell: shell.process_group(0).spawn()? })
    }

    /// Puts what `command` starts into the group.
    pub fn over<'a>(&self, command: &'a mut Command) -> &'a mut Command {
        command.process_group(self.shell.id() as i32)
    }
}

/// All went well: the shell ends, and no one else.
impl Drop for Watch {
    fn drop(&mut self) {
        if let Some(mut pipe) = self.shell.stdin.take() {
            pipe.write_all(b"over\n").ok();
        }
        self.shell.wait().ok();
    }
}
