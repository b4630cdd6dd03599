//! The commands, and what `--help` says of them.
use crate::args::{Choice, Command};
use crate::{compose, declare, decompose, dump, list, outline, places, section, show, whole};

const MANY: usize = usize::MAX;

/// In the order in which they are listed.
pub static COMMANDS: &[Command] = &[
    Command {
        name: "list",
        use_: "[FILE]",
        about: "a line for each record: index, leaf, length",
        help: "\
The first line has the kind of stream (tpi, or ipi for ids), its lowest and highest index and its length; a section's
has its lowest index and its length. Each line after it is a record: its index, its leaf in hex, its payload's length.
The last one, `end`, has the number of records; it is missing where the stream is refused midway.

    pdbtypes list samples/e.tpi
        tpi 4096 4098 78
        4096 1001 8
        4097 1002 10
        end 2",
        choices: &[Choice::Json, Choice::Ids],
        least: 0,
        most: 1,
        run: list::run,
    },
    Command {
        name: "dump",
        use_: "[FILE]",
        about: "every field of every record by its name",
        help: "\
A record has a line with its index, its leaf, its payload's length and its declaration, and a line for each field.
A type stands by its index and its declaration, if that has at most 4,096 bytes. A record that no reader takes has its
refusal in place of its fields. In an id stream types stand by their indices alone: they are of the type stream.

    pdbtypes dump samples/e.tpi
        4096 LF_MODIFIER, 8 bytes: const int
            underlying_type: 116 int
            constant: yes
            volatile: no
            unaligned: no
        ..",
        choices: &[Choice::Json, Choice::Ids],
        least: 0,
        most: 1,
        run: dump::run,
    },
    Command {
        name: "outline",
        use_: "[FILE [NAME..]]",
        about: "classes, unions and enumerations with their members",
        help: "\
Every definition with its bases, fields, methods and enumerators, or those that are named. A forward reference counts as
the definition that has its name, so that an array of such a type has a length.

    pdbtypes outline samples/plain-x64.tpi node
        struct node, 120 bytes
            next at 0: node *
            name at 8: const volatile char *
            p at 16: point [3][4]
            call at 112: int (*)(int, node *, ...)",
        choices: &[],
        least: 0,
        most: MANY,
        run: outline::run,
    },
    Command {
        name: "show",
        use_: "FILE INDEX..",
        about: "one record, as dump prints it",
        help: "\
An index is decimal, or hex behind 0x. One below the stream's lowest is a primitive type.

    pdbtypes show samples/e.tpi 0x1001
        4097 LF_POINTER, 10 bytes: const int *
            underlying_type: 4096 const int
            attributes: 0x0001000c Ptr64 Pointer size=8
            containing_class: none",
        choices: &[Choice::Ids],
        least: 2,
        most: MANY,
        run: show::run,
    },
    Command {
        name: "declare",
        use_: "FILE [INDEX..]",
        about: "types as C declarations",
        help: "\
A line for each type: its index and its declaration; of all types where none is named. What has no declaration, such as
an argument list, has `refused 24, leaf not printed` in its place.

    pdbtypes declare samples/plain-x64.tpi 4117 0x1030
        4117 int (*)(int, node *, ...)
        4144 unsigned long long [3][5][7]",
        choices: &[],
        least: 0,
        most: MANY,
        run: declare::run,
    },
    Command {
        name: "fit",
        use_: "[FILE]",
        about: "whether a type stream is fit to bind",
        help: "\
It is where every record and every element decodes, every type that a record names is an earlier record or a known
primitive type, and there are as many records as the header says. Else the lowest record at fault is named, and the
first rule that it breaks; then the status is 1. A section has ids among its types, which no type stream has.

    pdbtypes fit samples/e.tpi
        fit",
        choices: &[Choice::Json],
        least: 0,
        most: 1,
        run: whole::fit,
    },
    Command {
        name: "drop",
        use_: "FILE ROOT.. -o OUT",
        about: "the stream of what some types reach",
        help: "\
Writes a type stream with the records that the roots reach, renumbered without holes. A root is an index or the name of a
class, a union or an enumeration, whose definitions are taken, or its forward references where it has no definition.
A line for each root has its old and its new index. A forward reference that is reached does not reach its definition,
which has another index: with --whole definitions of the same name are taken too.

    pdbtypes drop samples/plain-x64.tpi point 0x100b -o small.tpi
        4130 4099 point
        4107 4097
        kept 4 of 55 records, 152 of 1204 bytes",
        choices: &[Choice::Out, Choice::Whole],
        least: 2,
        most: MANY,
        run: whole::drop_,
    },
    Command {
        name: "report",
        use_: "[FILE..]",
        about: "records and bytes of some streams, leaf by leaf",
        help: "\
The totals of all streams, the largest record, and a line for each leaf: how many records have it, and their bytes.
A stream that is refused, by its header or midway, is not counted; it is named, and the status is 1.

    pdbtypes report samples/e.tpi samples/rich-x64.tpi
        streams 2, refused 0
        records 234, ..",
        choices: &[Choice::Json, Choice::Ids],
        least: 0,
        most: MANY,
        run: whole::report,
    },
    Command {
        name: "keep",
        use_: "[FILE] [-o PLACES]",
        about: "writes a places file, by which records are found",
        help: "\
The places file goes to PLACES, or to standard output. It has a place for each block of 8 records; --shift N, 0 to 6,
makes it blocks of 2^N.

    pdbtypes keep samples/rich-x64.tpi -o rich.places",
        choices: &[Choice::Out, Choice::Shift, Choice::Ids],
        least: 0,
        most: 1,
        run: places::keep,
    },
    Command {
        name: "lookup",
        use_: "FILE PLACES INDEX..",
        about: "records by their indices and a places file",
        help: "\
A line for each record, as list prints it. The stream is not walked: a places file of another stream, a cut and a changed
one are refused.

    pdbtypes lookup samples/rich-x64.tpi rich.places 0x1005
        4101 1507 30",
        choices: &[Choice::Ids],
        least: 3,
        most: MANY,
        run: places::lookup,
    },
    Command {
        name: "sections",
        use_: "[FILE] [--stream -o OUT]",
        about: "the records of a section .debug$T, or a type stream of it",
        help: "\
Lists the records as list does. With --stream a type stream is made of the section, with the section's records and a
header that counts them; it goes to OUT, or to standard output.

    pdbtypes sections samples/rich-x64.debugT
        section 4096 10588
        ..
    pdbtypes sections samples/rich-x64.debugT --stream -o rich.tpi",
        choices: &[Choice::Json, Choice::Stream, Choice::Out],
        least: 0,
        most: 1,
        run: section::run,
    },
    Command {
        name: "compose",
        use_: "[TEXT] [-o OUT]",
        about: "makes a stream from lines of text",
        help: "\
The first line has the header's 15 fields, each other one a record: its leaf and its values, as docs/TEXT.md says.
Each bad line is named by its number and by what is wrong with it; then no stream is written, and the status is 1.

    pdbtypes compose e.txt -o e.tpi
    where e.txt has
        20040203 56 4096 4098 24 0 0 0 0 0 0 0 0 0 0
        1001 116 1 0 0      # const int
        1002 4096 65548 -   # a pointer to it",
        choices: &[Choice::Out],
        least: 0,
        most: 1,
        run: compose::run,
    },
    Command {
        name: "decompose",
        use_: "[FILE]",
        about: "prints a stream as the lines that make it",
        help: "\
The lines are those that compose takes. A record or an element that is refused has `refused` and its number in its place,
which compose takes for a bad line; then the status is 1.

    pdbtypes decompose samples/e.tpi
        20040203 56 4096 4098 22 0 0 0 0 0 0 0 0 0 0
        1001 116 1 0 0
        1002 4096 65548 -",
        choices: &[Choice::Ids],
        least: 0,
        most: 1,
        run: decompose::run,
    },
];

const FILES: &str = "\
A FILE is a raw type or id stream, a whole program database (.pdb), a section .debug$T or an object file (x86-64, x86,
Arm64), told apart by what it holds; `-`, or none where none is named, is standard input. Out of a database the type
stream is taken by llvm-pdbutil, out of an object file its section by objcopy, where they are installed. A stream has
at most 4,294,967,294 bytes: a longer file is refused by 16, and is not read.
";

const OPTIONS: &[(Choice, &str)] = &[
    (Choice::Ids, "--ids        the id stream of a database, in place of its type stream"),
    (Choice::Json, "--json       JSON, in place of lines"),
    (Choice::Stream, "--stream     make a type stream"),
    (Choice::Whole, "--whole      also the definitions of the forward references that are reached"),
    (Choice::Out, "-o OUT       the file that is written"),
    (Choice::Shift, "--shift N    blocks of 2^N records, N from 0 to 6"),
];

pub fn find(name: &str) -> Option<&'static Command> {
    COMMANDS.iter().find(|command| command.name == name)
}

pub fn whole() -> String {
    let mut text = "pdbtypes COMMAND [OPTION..] FILE ..\nReads, prints, checks and makes type streams of program databases.\n\n".to_string();
    for command in COMMANDS {
        text += &format!("    {:10} {:26} {}\n", command.name, command.use_, command.about);
    }
    text += &format!("\n{FILES}\n");
    text += "\
pdbtypes COMMAND --help says more of a command, with an example. pdbtypes --version says which this is.
Status: 0 done; 1 refused, or not fit; 2 called wrong, a file cannot be read or written, or there is no memory for it.
What is wrong is said on standard error, a refusal by its number and name: docs/NUMBERS.md has them.
";
    text
}

pub fn of(command: &Command) -> String {
    let mut text = format!("pdbtypes {} {}\n{}.\n\n{}\n", command.name, command.use_, capital(command.about), command.help);
    let options: Vec<&str> = OPTIONS
        .iter()
        .filter(|(choice, _)| command.choices.contains(choice))
        .map(|(_, line)| *line)
        .collect();
    if !options.is_empty() {
        text += &format!("\n{}\n", options.join("\n"));
    }
    text
}

/// The same text as a sentence begins.
fn capital(text: &str) -> String {
    let mut letters = text.chars();
    letters.next().map_or(String::new(), |first| first.to_uppercase().chain(letters).collect())
}
