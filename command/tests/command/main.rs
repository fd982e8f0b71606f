//! The command as its user meets it: the program itself, the program installed,
//! and `./leverbonnet` of a copied project.

mod building;
mod copy;
mod drawings;
mod explanations;
mod figures;
mod folder;
mod in_words;
mod inputs;
mod installed;
mod layouts;
mod outputs;
mod project;
mod run;
mod sheets;
mod unreached;
mod user;
mod words;
