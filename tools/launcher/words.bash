# Made by tools/words from tools/freight_words/description.py: change that, and run tools/words.
# shellcheck shell=bash disable=SC2034 # the launcher sources this
version='0.2'
commands='direct plan improve bound check yard fleet replan quote trial import export picture help'
whole_words='-h --help --version'
answers='0 10 11 12 13'
# The commands that go to a script of tools/, and those that read records.
scripts='import export picture'
readers='direct plan improve bound check yard fleet replan quote'
# Of each command: the options of the program, those of the launcher, and the numbers that stand after it.
declare -A options=(
  [plan]='--rounds --branches --scale --seconds --spans --notes'
  [improve]='--rounds --branches --scale --seconds --spans --notes'
  [bound]='--seconds --spans'
  [fleet]='--trucks'
  [replan]='--rounds --branches --seconds --spans --notes'
  [quote]='--rounds --branches --seconds --spans --notes'
)
declare -A own_options=(
  [direct]='-o --output --certificate --timetable-only --allow-empty -h --help'
  [plan]='-o --output --certificate --timetable-only --allow-empty -h --help'
  [improve]='-o --output --certificate --timetable-only --allow-empty -h --help'
  [bound]='-o --output --allow-empty -h --help'
  [check]='-o --output --allow-empty -h --help'
  [yard]='-o --output --allow-empty -h --help'
  [fleet]='-o --output --allow-empty -h --help'
  [replan]='-o --output --certificate --timetable-only --allow-empty -h --help'
  [quote]='--shipment -o --output --allow-empty -h --help'
  [trial]='-o --output -h --help'
  [import]='-h --help'
  [export]='-h --help'
  [picture]='-h --help'
  [help]='-h --help'
)
declare -A places=(
  [yard]='SEED'
  [trial]='SEED TERMINALS SHIPMENTS'
)
# Of each number: the least, the most, and both as they are shown.
declare -A least=(
  [--rounds]='0'
  [--branches]='0'
  [--scale]='1'
  [--seconds]='1'
  [yard.SEED]='0'
  [trial.SEED]='0'
  [trial.TERMINALS]='2'
  [trial.SHIPMENTS]='0'
)
declare -A most=(
  [--rounds]='4000'
  [--branches]='100000'
  [--scale]='1000000000'
  [--seconds]='86400'
  [yard.SEED]='2147483647'
  [trial.SEED]='2147483647'
  [trial.TERMINALS]='100'
  [trial.SHIPMENTS]='500'
)
declare -A ranges=(
  [--rounds]='0 to 4,000'
  [--branches]='0 to 100,000'
  [--scale]='1 to 1,000,000,000'
  [--seconds]='1 to 86,400'
  [yard.SEED]='0 to 2,147,483,647'
  [trial.SEED]='0 to 2,147,483,647'
  [trial.TERMINALS]='2 to 100'
  [trial.SHIPMENTS]='0 to 500'
)
# Of each option with a number: the one that it has without being named.
declare -A without=(
  [--rounds]='400'
  [--branches]='4000'
  [--scale]='1000000'
)
# Those before which no 0 stands.
unpadded='--seconds'
