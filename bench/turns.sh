#!/usr/bin/env bash
# Runs three and five nodes over connections in memory, with 1,000 seeds (or the first $1), and replays what they did as
# events of a world: the tests of `worked_nodes`, which the gate runs with 4 seeds. Connections break at any call,
# clients ask, leave and vanish, and links hold as much as their capacity. For each network a line gives the first seed
# and turn with an error, the first seed in which the count of sweeps did not rise (None if there is none), the events,
# how many of them were losses, the sends that filled a link, the turns that were not due, and the sweeps. Status 1 if
# something was wrong.
set -euo pipefail
seeds=${1:-1000}
cd "$(dirname "$0")/../crates/worked_nodes"
rt test > /dev/null 2>&1
TOKENTREE_SEEDS=$seeds out/worked_nodes_tests tests::replays::rows::turns_of_three_and_of_five_nodes_are_a_run
