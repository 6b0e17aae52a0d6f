#!/bin/sh
# Writes the man page of a program of this repository: of ingestctl from its own help, of ingestd from docs/COMMANDS.md.
set -e
cd "$(dirname "$0")/.."
ctl=crates/ingestctl/out/ingestctl
escaped() { sed -e 's/\\/\\e/g' -e "s/^[.']/\\\\\&&/" -e 's/-/\\-/g'; }
# The text of a section of a page, without its heading; links are their words alone.
section() { sed -n "/^$2\$/,/^## /p" "$1" | sed -e '1d' -e '/^## /d' -e 's/\[\([^]]*\)\]([^)]*)/\1/g'; }
verbatim() { echo .nf; escaped; echo .fi; }
# Paragraphs, lists, tables of two columns, and lines that are indented by four spaces.
filled() {
  escaped | awk '
    /^    / { if (!as_is) print ".nf"; as_is = 1; print; next }
    as_is && NF { print ".fi"; print ".PP"; as_is = 0 }
    /^\|[-|\\ ]*$/ { next }
    /^\|/ { split($0, cell, / *\| */); print ".TP"; print cell[2]; print cell[3]; next }
    /^\\- / { print ".IP \\(bu 2"; sub(/^\\- /, "") }
    /^$/ { if (!as_is) print ".PP"; next }
    { print }
    END { if (as_is) print ".fi" }'
}
head_of() { echo ".TH $(echo "$1" | tr '[:lower:]' '[:upper:]') 1 \"\" \"$1 $($ctl --version | cut -d' ' -f2)\" \"Sarymbeu\""; }

head_of "$1"
case $1 in
  ingestctl)
    printf '.SH NAME\ningestctl \\- logs as commands of ingestd, and what it refuses, in words\n'
    printf '.SH SYNOPSIS\n.B ingestctl\n.I COMMAND\n[OPTIONS] [WORDS]\n.SH COMMANDS\n'
    $ctl --help | sed -n '/^Commands:/,/^$/p' | sed '1d; /^ *help /d' | verbatim
    $ctl --help | sed -n '/^Commands:/,/^$/p' | sed '1d' | while read -r command _; do
      case $command in '' | help) continue ;; esac
      printf '.SS %s\n' "$command"
      $ctl "$command" --help </dev/null | verbatim
    done
    printf '.SH EXIT STATUS\n.TP\n0\nall is as it should be\n.TP\n1\nsomething that was looked at is wrong, and told\n'
    printf '.TP\n2\nit could not be looked at; one line on standard error says why\n'
    printf '.SH SEE ALSO\n.BR ingestd (1)\n' ;;
  ingestd)
    printf '.SH NAME\ningestd \\- the write path of a log store\n.SH SYNOPSIS\n.B ingestd\n[SETTINGS [FOLDER]]\n.br\n.B ingestd\nSETTINGS FOLDER IN OUT [IN OUT ..]\n.br\n.B ingestd \\-\\-version\n.SH DESCRIPTION\n'
    section docs/COMMANDS.md '# Commands' | sed '/^    ingestd /d' | filled
    for command in push sweep flush gauges board checkpoint query; do
      printf '.SH %s\n' "$(echo $command | tr '[:lower:]' '[:upper:]')"
      section docs/COMMANDS.md "## $command" | filled
    done
    printf '.SH CHANNELS\n'; section docs/COMMANDS.md '## Channels' | filled
    printf '.SH SETTINGS\n'; section docs/COMMANDS.md '## Settings' | filled
    printf '.SH EXIT STATUS\n'; section docs/COMMANDS.md '## Refusals' | filled
    printf '.SH FILES\nIn FOLDER:\n'; section docs/OPERATING.md '## What lies there' | filled
    printf '.SH SEE ALSO\n.BR ingestctl (1)\n' ;;
  *) echo "no man page of $1" >&2; exit 2 ;;
esac
