//! Two accounts in two SQLite files of this program, and a transfer between them that is made in both or in neither, with a
//! coordinator of the library linked in: transfer FOLDER
//!
//! The root of the tree is a node of the library; each file is a leaf. A promise is a row that is committed before the leaf
//! votes YES, and outlives a crash; the outcome moves the money and takes the row away. A child makes a transfer and is killed
//! in the midst of it, after the decision; the parent opens all again.

use rstar::{How, Node};
use std::ffi::CString;
use std::os::raw::{c_char, c_int, c_void};
use std::os::unix::process::ExitStatusExt;
use std::process::{Command, exit};
use std::ptr::{null, null_mut};

const TREE: &str = "[[process]]\nid = 1\nkind = \"coordinator\"\n\
    [[process]]\nid = 2\nkind = \"manager\"\nparent = 1\n[[process]]\nid = 3\nkind = \"manager\"\nparent = 1\n";

#[link(name = "sqlite3")]
extern "C" {
    fn sqlite3_open(path: *const c_char, file: *mut *mut c_void) -> c_int;
    fn sqlite3_prepare_v2(file: *mut c_void, text: *const c_char, size: c_int, made: *mut *mut c_void, rest: *const c_void) -> c_int;
    fn sqlite3_bind_text(made: *mut c_void, at: c_int, text: *const c_char, size: c_int, free: isize) -> c_int;
    fn sqlite3_bind_int64(made: *mut c_void, at: c_int, number: i64) -> c_int;
    fn sqlite3_bind_parameter_count(made: *mut c_void) -> c_int;
    fn sqlite3_step(made: *mut c_void) -> c_int;
    fn sqlite3_column_text(made: *mut c_void, at: c_int) -> *const c_char;
    fn sqlite3_finalize(made: *mut c_void) -> c_int;
}

/// A SQLite file.
struct File(*mut c_void);

impl File {
    fn open(path: &str) -> File {
        let (path, mut file) = (CString::new(path).unwrap(), null_mut());
        // SAFETY: the name ends in a zero byte, and the place is the program's.
        assert_eq!(unsafe { sqlite3_open(path.as_ptr(), &mut file) }, 0, "the file is not opened");
        File(file)
    }

    /// Runs a statement with a text ?1 and a number ?2, and gives the first column of its rows.
    fn run(&self, statement: &str, text: &str, number: i64) -> Vec<String> {
        let (sql, text) = (CString::new(statement).unwrap(), CString::new(text).unwrap());
        let (mut made, mut rows) = (null_mut(), Vec::new());
        // SAFETY: the file is open, texts end in a zero byte and outlive the statement, which is finalized once.
        unsafe {
            assert_eq!(sqlite3_prepare_v2(self.0, sql.as_ptr(), -1, &mut made, null()), 0, "{statement}");
            let count = sqlite3_bind_parameter_count(made);
            if count > 0 {
                sqlite3_bind_text(made, 1, text.as_ptr(), -1, -1);
            }
            if count > 1 {
                sqlite3_bind_int64(made, 2, number);
            }
            loop {
                match sqlite3_step(made) {
                    100 => {
                        let value = sqlite3_column_text(made, 0);
                        rows.push(if value.is_null() {
                            String::new()
                        } else {
                            std::ffi::CStr::from_ptr(value).to_string_lossy().into_owned()
                        });
                    }
                    101 => break,
                    other => panic!("{statement}: {other}"),
                }
            }
            sqlite3_finalize(made);
        }
        rows
    }
}

/// An account in a file, as a manager of the tree.
struct Leaf {
    number: u32,
    file: File,
    boot: String,
    tickets: u32,
    case: String,
    dies: bool,
}

impl Leaf {
    fn open(number: u32, path: &str, balance: i64) -> Leaf {
        let file = File::open(path);
        for statement in [
            "PRAGMA synchronous = FULL",
            "CREATE TABLE IF NOT EXISTS account (balance INTEGER CHECK (balance >= 0))",
            "CREATE TABLE IF NOT EXISTS promised (name TEXT PRIMARY KEY, amount INTEGER)",
            "CREATE TABLE IF NOT EXISTS boot (number INTEGER)",
            "INSERT INTO account SELECT ?2 WHERE ?1 = '' AND NOT EXISTS (SELECT 1 FROM account)",
            "INSERT INTO boot SELECT 1 + coalesce(max(number), 0) FROM boot",
        ] {
            file.run(statement, "", balance);
        }
        let boot = file.run("SELECT max(number) FROM boot", "", 0).remove(0);
        Leaf { number, file, boot, tickets: 0, case: String::new(), dies: false }
    }

    fn balance(&self) -> i64 {
        self.file.run("SELECT balance FROM account", "", 0)[0].parse().unwrap()
    }

    /// Promises to add an amount, if the account allows it.
    fn promise(&self, amount: i64) {
        self.file.run("INSERT INTO promised SELECT ?1, ?2 FROM account WHERE balance + ?2 >= 0", &self.case, amount);
    }

    /// The answer to a message.
    fn hear(&mut self, message: &str, name: &str) -> String {
        match message {
            "JOIN" => {
                self.tickets += 1;
                let ticket = format!("{}.{}.{}", self.number, self.boot, self.tickets);
                self.case = format!("{name}@{ticket}");
                format!("JOINED {name} {ticket}")
            }
            "PREPARE" if self.file.run("SELECT 1 FROM promised WHERE name = ?1", name, 0).is_empty() => format!("NO {name}"),
            "PREPARE" => format!("YES {name}"),
            _ => {
                let commits = message == "COMMIT";
                self.file.run("BEGIN IMMEDIATE", "", 0);
                if commits {
                    self.file.run(
                        "UPDATE account SET balance = balance + coalesce((SELECT amount FROM promised WHERE name = ?1), 0)",
                        name,
                        0,
                    );
                }
                self.file.run("DELETE FROM promised WHERE name = ?1", name, 0);
                self.file.run("COMMIT", "", 0);
                if self.dies {
                    let _ = Command::new("kill").args(["-9", &std::process::id().to_string()]).status();
                }
                format!("ACK {name} {}", if commits { "commit" } else { "abort" })
            }
        }
    }
}

struct Bank {
    root: Node,
    leaves: [Leaf; 2],
    begun: String,
    told: String,
}

impl Bank {
    fn open(folder: &str, how: How) -> Bank {
        let leaves = [Leaf::open(2, &format!("{folder}/2.sqlite"), 100), Leaf::open(3, &format!("{folder}/3.sqlite"), 20)];
        let root = Node::open(TREE, 1, format!("{folder}/1.log"), how).expect("the root opens");
        let opening = root.answer().to_string();
        let mut bank = Bank { root, leaves, begun: String::new(), told: String::new() };
        bank.carry(&opening);
        for leaf in 0..2 {
            for name in bank.leaves[leaf].file.run("SELECT name FROM promised", "", 0) {
                bank.tell(&format!("0 {}->1 INQUIRE {name}", leaf + 2));
            }
        }
        bank
    }

    /// Gives the root a line, and what it sends to the leaves.
    fn tell(&mut self, line: &str) {
        let answer = self.root.line(line).expect(line).to_string();
        print!("> {line}\n{answer}");
        self.carry(&answer);
    }

    fn carry(&mut self, answer: &str) {
        for line in answer.lines() {
            let words: Vec<&str> = line.split(' ').collect();
            match words[..] {
                ["begin", txn] => self.begun = txn.to_string(),
                ["told", _, outcome] => self.told = outcome.to_string(),
                [_, way, message, name, ..] if way.contains("->") => {
                    let to: usize = way.split("->").nth(1).unwrap().parse().unwrap();
                    let said = self.leaves[to - 2].hear(message, name);
                    self.tell(&format!("0 {to}->1 {said}"));
                }
                _ => {}
            }
        }
    }

    fn transfer(&mut self, amount: i64) {
        self.tell("begin pa");
        let txn = self.begun.clone();
        self.tell(&format!("join {txn} 2"));
        self.tell(&format!("join {txn} 3"));
        self.leaves[0].promise(-amount);
        self.leaves[1].promise(amount);
        self.tell(&format!("commit {txn}"));
    }

    fn expect(&self, two: i64, three: i64, when: &str) {
        let found = (self.leaves[0].balance(), self.leaves[1].balance());
        println!("{when}: {} and {}", found.0, found.1);
        assert_eq!(found, (two, three), "the accounts are wrong");
    }
}

fn main() {
    let words: Vec<String> = std::env::args().collect();
    if words.len() == 3 {
        let mut bank = Bank::open(&words[1], How::New);
        bank.transfer(30);
        bank.expect(70, 50, "after a transfer");
        bank.leaves[0].dies = true;
        bank.transfer(25); // it is decided, and one leaf has obeyed, when the program dies
        exit(1);
    }
    let child = Command::new(&words[0]).args([&words[1], "dies"]).status().expect("the child starts");
    assert_eq!(child.signal(), Some(9), "the child was not killed");
    println!("killed");
    let mut bank = Bank::open(&words[1], How::Existing);
    bank.expect(45, 75, "after the crash and the recovery");
    bank.transfer(500); // more than there is: leaf 2 votes NO
    assert_eq!(bank.told, "aborted");
    bank.expect(45, 75, "after a transfer that cannot be");
    bank.root.close().expect("all is forced");
}
