# Plays lines to node 1 of three nodes, with a `settle` behind each line. Its links to nodes 2 and 3 are open, and the link from node 2.
# Prints what each of node 1's steps did and where it is at the end, then from its account each message it took with a quorum set, and its commands, and
# from its report what it applied. In a line, `names SLOT SET` is a nomination of node 2 for this slot that names this set; a number before a line repeats it.
# Printed lines that differ only in consecutive message numbers are joined, as in 2..63.
#
# usage: bash examples/node_1.bash SET LINE..     SET is node 1's own
played=$(for line in "${@:2}"; do
    case $line in
    [0-9]*) yes "${line#* }" | head -n "${line%% *}" ;;
    *) echo "$line" ;;
    esac
done | sed 's/ names \([0-9]*\) \(.*\)/ nominate 2 \1 hash(\2) votes(ops()) accepted()/; s/$/\nsettle/')
script=$(printf 'nodes 3 3\nset 1 %s\nopen 2 1\nopen 1 2\nopen 1 3\n%s\n' "$1" "$played")

# What node 1 took, by its account: of each envelope where it came from, the set beside it and its verdict; of each command what became of it. A set or a
# value is made text by `bowls text`, as a line of its own between comments, which stay as they are.
took() {
    bowls run --account --quiet | python3 -c '
import json, sys
for it in json.load(sys.stdin)["nodes"][0]["taken"]:
    if it.get("command") == "propose":
        print("# propose slot", it["slot"], end="\npropose 1 1 {}\n# {}\n".format(it["value"] or "-", it["fate"]))
    elif "command" in it:
        print("#", it["command"], *([it["link"] + 2] if "link" in it else []), "slot", it["slot"], it["fate"])
    elif it.get("set"):
        print("# from", int(it["from"][:2], 16), "life", it["life"], "#{} with\nset 1 {}\n#".format(it["message"], it["set"]), it["verdict"])' |
        bowls text | awk '/^#/ { sub(/^# /, ""); if (value != "") { print head, value, $0; value = "" } else if (/ with$|^propose/) head = $0; else print; next } { value = $NF }'
}

{
    bowls trace <<< "$script" | sed -n '/^end$/,$ { s/^\(1 stands .*\) set .*/\1/p; d }; /^1 \(opened\|tick\|missed\)/d; s/ nominate .*/ nominate/; /^1 /p'
    took <<< "$script"
    { echo "$script" && echo report 1; } | bowls run --text --quiet | grep '^applied\|^state'
} | awk '
    function put() { if (key != "") { $0 = key; $5 = sign first (first == last ? "" : ".." last); print } key = "" }
    { line = $0; number = $5; of = sub(/^#/, "", number) ? "#" : "" }
    number !~ /^[0-9]+$/ { put(); print line; next }
    { $5 = "N"; now = $0 }
    now == key && of == sign && number == last + 1 { last = number; next }
    { put(); key = now; sign = of; first = last = number }
    END { put() }'
