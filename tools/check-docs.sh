#!/usr/bin/env bash
# Holds the docs to the tree and to the documents beside the checkout: first the tools' own test, then quotations and sentences, the
# reading list, the promises, and that each is determined or an exception. What one finds does not keep the next from looking.
set -eu
. "$(dirname "${BASH_SOURCE[0]}")/machine.sh"
need python3 python3
cd "$root"
status=0
for check in docs-test quotes reading-list 'figures --promises' public; do tools/$check || status=1; done
exit $status
