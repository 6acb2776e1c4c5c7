//! What `help` prints.

const INTRODUCTION: &str = "\
nattveldi-inspect COMMAND ..

Prints road certificates, messages and stores (ETSI TS 103 097 V1.2.1) in
readable form, and explains what the proved library answers about them.

Every verdict (accepted or refused, the number, ids, what the slots of a valid
store hold, what stands, questions) is the proved library's. Layout, offsets and
explanations are this tool's own reading, for display only, and so are the slots
of a bad store; where they do not fit the library's verdict, the output says so.
";

/// Commands that do alike, under a title.
struct Group {
    title: &'static str,
    commands: &'static [Command],
}

struct Command {
    name: &'static str,
    /// Parts that follow each other.
    text: &'static [&'static str],
}

const GROUPS: [Group; 4] = [
    Group {
        title: "Looking",
        commands: &[CERTIFICATE, MESSAGE, STORE],
    },
    Group {
        title: "Explaining, test by test",
        commands: &[DECIDE, INSTALL, ADMIT, LIST, WITHDRAW, PAGE],
    },
    Group {
        title: "Trying things out",
        commands: &[EXAMPLE],
    },
    Group {
        title: "This text",
        commands: &[HELP],
    },
];

const CERTIFICATE: Command = Command {
    name: "certificate",
    text: &[
        "  certificate [FILE]           fields, offsets, id; if refused, why and where\n",
        EACH,
    ],
};

const MESSAGE: Command = Command {
    name: "message",
    text: &[
        "  message [FILE]               the fields of a signed message, without a store\n",
        EACH,
    ],
};

const EACH: &str = "      --each                   there may be several FILEs: a page on each\n";

const STORE: Command = Command {
    name: "store",
    text: &["  store [FILE] [--at SECOND]   the slots; with --at, what stands at that second\n"],
};

const DECIDE: Command = Command {
    name: "decide",
    text: &[
        "  decide STORE MESSAGE         whether the message is accepted\n",
        "      --now TIME               microseconds; without it the message's own time\n",
        "      --position LAT,LON       your own, in degrees; without it 0,0\n",
        "      --age MICROSECONDS       0, which stands for two seconds, if not given\n",
        "      --verdict N              the chip's octet on the message, 1 if not given\n",
        "      --certificate-verdict N  and on the certificate that it carries\n",
    ],
};

const INSTALL: Command = Command {
    name: "install",
    text: &[
        "  install STORE CERTIFICATE    a root goes into the store\n",
        VERDICT,
        OUTPUT,
    ],
};

const ADMIT: Command = Command {
    name: "admit",
    text: &[
        "  admit STORE CERTIFICATE      a ticket or authority goes below its issuer\n",
        VERDICT,
        OUTPUT,
    ],
};

const VERDICT: &str =
    "      --verdict N              the chip's octet on the certificate, 1 for a good
                               signature; without it 1 is assumed, and said
";

const OUTPUT: &str = "      --output FILE            if accepted, write the changed store here;
                               without it nothing is written
";

const LIST: Command = Command {
    name: "list",
    text: &["  list STORE ID --at SECOND    what would no longer stand if ID were withdrawn\n"],
};

const WITHDRAW: Command = Command {
    name: "withdraw",
    text: &["  withdraw STORE ID            withdraws it\n", OUTPUT],
};

const PAGE: Command = Command {
    name: "page",
    text: &["  page [FILE]                  an input of the program `page`: store, id, second\n"],
};

const EXAMPLE: Command = Command {
    name: "example",
    text: &[
        "  example certificate root | authority | ticket\n",
        "  example store\n",
        "  example message by-id | with-certificate\n",
        "      --output FILE            to a file, not standard output; --quiet wants it\n",
        "  Signatures in the examples are placeholders. Neither the library nor this tool\n",
        "  computes or checks a signature: a chip does, and its verdict is an input.\n",
    ],
};

const HELP: Command = Command {
    name: "help",
    text: &[
        "  help [COMMAND]               all of this, or what it says of one command\n",
        "  --help, --version            this text, as without any word; the version\n",
    ],
};

const REMAINDER: &str = "
Inputs are raw octets, or hex text: two digits an octet, white space does not
count, nor does what stands between a # and the end of its line, nor a BOM
before it all. Which of them an input is, is seen from its octets, or said:
  --hex         all inputs are hex text; --input-hex is another name of it
  --octets      all inputs are raw octets; --input-raw is another name of it
No FILE, or -, is standard input.

Outputs: a store is written in the form in which STORE came: raw octets in, raw
octets out; hex text in, hex text out, with this tool's own comments and without
those of the input. An example is hex text with comments. To override that:
  --raw         write raw octets
  --output-hex  write hex text

Answers are pages for people. To override that:
  --json        one JSON object on one line; docs/INSPECT-JSON.md has its keys
  --quiet       the library's number alone, 0 if it accepts

Pages on several files (--each) stand in the order given with an empty line
between them. --json puts them into one object, and --quiet gives each file its
line, with a - for one that cannot be read. The others are shown all the same,
and the exit status is 2.

--output writes all of FILE or nothing: a temporary file
(.nattveldi-inspect-..) in the same folder is written, synced and renamed to
FILE, and the folder is synced. If anything fails, standard output included,
the temporary file is removed, FILE is as it was, the message says so, and the
exit status is 2. Only if at the very end the folder cannot be synced, FILE is
written, and the message says that. A program that is killed may leave its
temporary file; delete it. FILE keeps its permissions, and its owner and group
where the system allows it. If it is a link, the file behind it is replaced; a
second name of it, a hard link, keeps the old octets. A FILE that cannot be
opened for reading and writing, or that is not a regular file, is not replaced.

While a store is read, changed and written, STORE and FILE are locked (flock),
so that of several changes at once none is lost: one waits for the other, and
says so after a second. The locks are on the files themselves, with no lock
file, and bind only those who lock too. A store from standard input is not
locked. Who only reads needs no lock: a file is always whole.

Times count from 2004-01-01 00:00:00 UTC in TAI seconds (SECOND) or microseconds
(TIME), which leap seconds put ahead of UTC, by 5 since 2017. A date in UTC is
taken too: 2026-06-02T12:00:00.5Z. An ID is 16 hex digits.

Exit status: 0 accepted, 1 refused by the library, 2 bad usage, or an input that
cannot be read or an output that cannot be written, standard output too.

A first try:
  nattveldi-inspect example store --output store.hex
  nattveldi-inspect example message by-id --output message.hex
  nattveldi-inspect message message.hex
  nattveldi-inspect decide store.hex message.hex --position 64.1,-21.9
";

pub fn all() -> String {
    let mut text = INTRODUCTION.to_string();
    for group in &GROUPS {
        text.push_str(&format!("\n{}:\n", group.title));
        let commands = group.commands.iter();
        text.extend(commands.flat_map(|command| command.text).copied());
    }
    text + REMAINDER
}

/// What it says of one command.
pub fn on(name: &str) -> Option<String> {
    let command = commands().find(|command| command.name == name)?;
    let more = "`nattveldi-inspect help` says more of inputs, outputs, times and exit status.";
    Some(format!("{}\n{more}\n", command.text.concat()))
}

/// For whoever gives options and no command.
pub fn usage() -> String {
    let names: Vec<&str> = commands().map(|command| command.name).collect();
    format!(
        "usage: nattveldi-inspect COMMAND ..\ncommands: {}",
        names.join(", ")
    )
}

fn commands() -> impl Iterator<Item = &'static Command> {
    GROUPS.iter().flat_map(|group| group.commands)
}
