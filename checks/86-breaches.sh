# Each breach of the protocol by a script over a real socket, whole and cut in two: it is told with the byte that shows it and not before.
. checks/need.sh
need python3 python3

program=$(tools/built lnbd) || exit 1
python3 -B checks/breaches.py "$program"
