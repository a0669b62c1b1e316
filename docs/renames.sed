# What landing 15 renamed, for code that calls the library: sed -E -i -f docs/renames.sed FILES
# If a module of your own has one of the six old crate names, leave its line out.
# Crates: those of one family share a prefix.
s/\bhistory::/hrtf_history::/g
s/\bdesk::/hrtf_desk::/g
s/\brings::/hrtf_rings::/g
s/\bruns::/hrtf_runs::/g
s/\brow_choice::/bank_choice::/g
s/\bwire::/ears_wire::/g
s/Rattle·(history|desk|rings|runs)\./Rattle·hrtf_\1./g
s/Rattle·row_choice\./Rattle·bank_choice./g
s/Rattle·wire\./Rattle·ears_wire./g
# Functions.
s/\bchecks::unsound_f(32|64)\b/checks::has_nonfinite_f\1/g
s/\bchecks::least\b/checks::min/g
s/\bears_file::told\b/ears_file::result_line/g
s/\bplanes::(inverse_root|Inverse)\b/numbers::\1/g
# Structs: by their path, and by their name below the line that imports it.
/^use hrtf_checks::Shape;/,$ s/\bShape\b/ConvolverShape/g
/^use hrtf::Processed;/,$ s/\bProcessed\b/BlockAnswer/g
/^use ears_file::Outcome;/,$ s/\bOutcome\b/RunOutcome/g
s/\bhrtf_checks::Shape\b/hrtf_checks::ConvolverShape/g
s/\bhrtf::Processed\b/hrtf::BlockAnswer/g
s/\bears_file::Outcome\b/ears_file::RunOutcome/g
