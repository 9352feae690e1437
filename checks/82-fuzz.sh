# Servers and clients drawn at random, most of them hostile, against each tool: checks/fuzz says what is asked of every run. A finding is told with the words that play
# its session again.
. checks/need.sh
need python3 python3

program=$(tools/built lnbd) || exit 1
told=$(python3 -B checks/fuzz "$program" --seed 1 --sessions 300 2>&1)
last=$(tail -n 1 <<<"$told")
case $last in
  'sessions 300 found 0 seconds '*) echo "ok: 300 sessions of the fuzzer" ;;
  *) echo "failed: sessions of the fuzzer: $(grep -v '^ ' <<<"$told" | grep -m 5 '^found: \|Error' | tr '\n' ' ')$last" ;;
esac
