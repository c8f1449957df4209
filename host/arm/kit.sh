# Sourced by run.sh: the Rattle kit's folder as $kit, and its part for this processor as $part.
if [ -n "${RATTLE_HOME:-}" ]; then
    kit=$RATTLE_HOME
else
    page=$(rt doc) || exit 1
    kit=$(cd "$(dirname "$page")/.." && pwd -P) || exit 1
fi
part=$kit/on/$(uname -m)
