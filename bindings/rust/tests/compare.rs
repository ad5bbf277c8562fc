//! Compares the libraries, through the wrapper and through the C interface, with a program written apart from them,
//! the plain C program of `bench/` (the package `plain`), and with the numbers of documents 01 and 02. Every function gets
//! valid and damaged input, and all lent memory is compared after every call.

mod calls;
mod cliques;
mod factor_calls;
mod files;
mod guarded;
mod held_calls;
mod join_calls;
mod join_sentence;
mod made_meshes;
mod meshes;
mod paths;
mod random;
mod sentence;
mod solve_calls;
mod texts;

mod damaged_files;
mod damaged_layouts;
mod damaged_meshes;
mod damaged_texts;
mod damaged_writings;
mod factored;
mod factoring;
mod families;
mod generated_joins;
mod held;
mod join_refusals;
mod joining;
mod large;
mod large_joins;
mod large_texts;
mod list_lengths;
mod pairs;
mod plans;
mod replies;
mod residuals;
mod row_faults;
mod settled;
mod solve_refusals;
mod solving;
mod versions;
mod worked;
mod worked_texts;
