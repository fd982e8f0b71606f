//! install DIR

use crate::command::{Asked, Command};
use crate::complaint::Complaint;
use crate::given::Given;
use crate::Work;

const USAGE: &str = "install DIR";

/// The proved library is x86-64 code. Elsewhere the program asks the program
/// `calls`, which runs under an emulator and can't leave its project.
const LINKED: bool = cfg!(target_arch = "x86_64");

pub(crate) const COMMAND: Command = Command {
    name: "install",
    usage: &[[USAGE, "put the program into the folder DIR"]],
    about: "\
DIR/leverbonnet then needs neither the Rattle kit nor the sources. An older one
is replaced. This can be had on x86-64 only, where the proved library is linked.
",
    options: &[],
    read,
};

fn read(mut given: Given) -> Result<Asked, Complaint> {
    let folder = given.needed("the folder DIR", USAGE)?;
    given.ended(USAGE)?;
    if !LINKED {
        return Err(
            "only on x86-64 can the program leave its project: call ./leverbonnet where \
                    it is, or put a symbolic link to it on the PATH."
                .into(),
        );
    }
    Ok(Asked::Work(Work::Install(folder)))
}

#[cfg(test)]
mod tests {
    use crate::command::asked;

    #[test]
    fn a_folder_is_needed() {
        let complaint = asked(vec!["install".into()]).unwrap_err();
        assert_eq!(
            complaint.sentence(),
            "the folder DIR is missing: call it as leverbonnet install DIR."
        );
    }

    #[cfg(not(target_arch = "x86_64"))]
    #[test]
    fn where_nothing_is_linked_it_can_not_be_had() {
        let complaint = asked(vec!["install".into(), "/tmp".into()]).unwrap_err();
        assert!(complaint.sentence().starts_with("only on x86-64"));
    }
}
