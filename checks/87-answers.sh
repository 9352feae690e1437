# Each refusal, each reply to an option, each error of a command, each fault of an address and each line of a status, by a run of the program over a real socket.
. checks/need.sh
need python3 python3

program=$(tools/built lnbd) || exit 1
python3 -B checks/answers.py "$program"
