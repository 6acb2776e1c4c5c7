//! The C header, the archive and what `./install` makes of them, used from C and
//! Python: the examples are compiled, linked and run.

mod certificates;
mod guide;
mod header;
mod header_text;
mod inline_functions;
mod installation;
mod instructions;
mod messages;
mod overview;
mod pkg_config;
mod programs;
mod shared_library;
mod whole_installation;
mod withdrawal;
