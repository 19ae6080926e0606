//! A plan that was checked when it was made.
use crate::plan::{self, Node};
use crate::why::Why;

/// A plan that documents 01 and 02 accept. There is no other: it comes from an accepted file ([`Plan::read`]) or from the text of
/// one ([`text::parse`](crate::text::parse)), so that what takes a plan needs no error of its own.
///
/// ```
/// use sort_placement::{Plan, text};
///
/// let plan = text::parse("merge keys=0\n  source streams=2 width=1").unwrap();
/// assert_eq!(plan.count(), 2);
/// assert_eq!(Plan::read(&plan.write()), Ok(plan));
/// assert_eq!(Plan::read(&[]).unwrap_err().to_string(), "refusal 1: the file is empty");
/// ```
#[derive(Clone, Debug, PartialEq, Eq)]
pub struct Plan {
    root: Node,
}

impl Plan {
    /// The plan of a file.
    ///
    /// # Errors
    ///
    /// Why documents 01 and 02 refuse the file: the number that every call of the library gives for it, and the place.
    pub fn read(file: &[u8]) -> Result<Plan, Why> {
        match plan::explain(file) {
            Some(why) => Err(why),
            None => Ok(Plan { root: plan::tree(file) }),
        }
    }

    /// The file of the plan.
    pub fn write(&self) -> Vec<u8> {
        plan::write(&self.root)
    }

    /// Its nodes, 1 to 126.
    pub fn count(&self) -> usize {
        self.root.count()
    }

    pub(crate) fn root(&self) -> &Node {
        &self.root
    }
}

/// Why the library refuses a plan file; `None` where it accepts it.
///
/// The number is the library's; the place and the words are the package's own.
pub fn explain(file: &[u8]) -> Option<Why> {
    plan::explain(file)
}
