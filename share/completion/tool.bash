# Completion of @COMMAND@ for bash: the options that its --help tells, and files. The function is bash-completion's.
# shellcheck shell=bash
complete -F _longopt @COMMAND@
