# Takes out of standard error the lines of progress, warnings, failures, words, patterns and places, which program_messages and
# vunit_configs try.
/^vunit_run: (\[[0-9]+\/[0-9]+\] |warning: (nothing is |no test |.*vunit\.toml:|.* lies behind a link|.* lines dropped|records that )|a folder's name has |it said: |fail |failed |tests passed: |wrong |there is no value for |--help says |PATTERN: |-.*: |.* stands twice$|process [0-9]+ has locked )/d
/^vunit_run: .*: (an absolute path|a part \.\.?) matches nothing: /d
/^vunit_run: .* is a link to a folder, which no pattern enters$/d
/^vunit\.toml:[0-9]+:[0-9]+: /d
/^.*:[0-9]+:[0-9]+: (no unit |no architecture |use of |.* is declared here$)/d
/^vunit_configs: \[[0-9]+\/[0-9]+\] /d
