use rstar::{How, Node, Refused};
use std::collections::VecDeque;
use std::path::PathBuf;

const TREE: &str = "[[process]]\nid = 1\nkind = \"coordinator\"\n[[process]]\nid = 2\nkind = \"manager\"\nparent = 1\n";

struct Folder(PathBuf);

impl Folder {
    fn new(name: &str) -> Folder {
        let folder = std::env::temp_dir().join(format!("rstar-{name}-{}", std::process::id()));
        std::fs::create_dir_all(&folder).unwrap();
        Folder(folder)
    }

    fn log(&self, process: u32) -> PathBuf {
        self.0.join(format!("{process}.log"))
    }
}

impl Drop for Folder {
    fn drop(&mut self) {
        let _ = std::fs::remove_dir_all(&self.0);
    }
}

fn number(answer: Result<Node, Refused>) -> u32 {
    answer.err().map_or(0, |why| why.number)
}

#[test]
fn a_transaction_commits_and_is_found_again() {
    let folder = Folder::new("commits");
    let mut nodes: Vec<Node> = (1..=2).map(|p| Node::open(TREE, p, folder.log(p), How::New).unwrap()).collect();
    assert_eq!(nodes[0].answer(), "log 1 Opened 1 forced\nok\n");
    let mut told = String::new();
    for line in ["begin pa", "join a1.1 2", "work a1.1 2 put x 1", "commit a1.1", "outcome a1.1"] {
        let mut left = VecDeque::from([(1usize, line.to_string())]);
        while let Some((p, line)) = left.pop_front() {
            for answer in nodes[p - 1].line(&line).unwrap().lines() {
                told.push_str(answer);
                told.push('\n');
                if let Some((_, to)) = answer.split_once("->") {
                    left.push_back((to.split(' ').next().unwrap().parse().unwrap(), answer.to_string()));
                }
            }
        }
    }
    assert!(told.contains("told a1.1 committed\n") && told.contains("outcome a1.1 committed\n"));
    assert_eq!(number(Node::open(TREE, 1, folder.log(1), How::Existing)), 5);
    for node in nodes {
        node.close().unwrap();
    }
    assert_eq!(number(Node::open(TREE, 1, folder.log(1), How::New)), 7);
    let mut again = Node::open(TREE, 1, folder.log(1), How::Existing).unwrap();
    assert_eq!(again.line("outcome a1.1"), Ok("outcome a1.1 committed\nok\n"));
    drop(again);
    assert_eq!(number(Node::open(TREE, 2, folder.log(1), How::Existing)), 10);
}

#[test]
fn refusals_have_their_reasons() {
    let folder = Folder::new("refusals");
    assert_eq!(number(Node::open(TREE, 1, folder.log(1), How::Existing)), 6);
    assert_eq!(number(Node::open("[[", 1, folder.log(1), How::New)), 1);
    assert_eq!(number(Node::open(TREE, 9, folder.log(1), How::New)), 3);
    let why = Node::open(TREE, 1, folder.0.join("no").join("1.log"), How::New).err().unwrap();
    assert_eq!((why.number, why.reason), (9, Some(2)));
    let mut node = Node::open(TREE, 1, folder.log(1), How::New).unwrap();
    assert_eq!(node.line("end"), Ok("ok\n"));
    assert_eq!(node.line("doubt").err().map(|why| why.number), Some(25));
    node.close().unwrap();
}

#[test]
fn an_answer_may_be_longer_than_the_room() {
    let folder = Folder::new("long");
    let mut node = Node::open(TREE, 1, folder.log(1), How::New).unwrap();
    let help = node.line("help").unwrap().to_string();
    assert!(help.ends_with("ok\n") && node.answer() == help);
}

#[test]
fn names_and_audits() {
    let xid = rstar::xid_of_case(1, Some(1), "a1.1@2.1.1").unwrap();
    assert_eq!(rstar::xid_case(&xid), Ok((1, Some(1), "a1.1@2.1.1".to_string())));
    assert_eq!(rstar::xid_bytes(&rstar::xid_text(&xid).unwrap()), Ok(xid));
    assert_eq!(rstar::xid_bytes("x").err().map(|why| why.number), Some(36));
    let logs = format!("{TREE}---\nlog 1\nlog 2\n");
    assert_eq!(rstar::audit(&logs, false), Ok(("mismatches 0\n".to_string(), 0)));
    assert_eq!(rstar::log(&logs).unwrap().1, 0);
    assert_eq!(rstar::audit("x", true).unwrap().1, 1);
    assert_eq!(rstar::version(), rstar::VERSION);
}
