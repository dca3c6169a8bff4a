# What an instruction changed, from the reports before it, behind it, and behind the load of `word` that follows it:
# registers, HI and LO, the word, what is run behind its delay slot if it has one, and where else the program is.
FNR == 1 { at++ }
/^cpu/   { pc[at] = $3; next_[at] = $4; slot[at] = $5; value[at, "hi"] = $6; value[at, "lo"] = $7 }
/^regs/  { for (n = 1; n < 32; n++) value[at, "$" n] = $(n + 2) }

function say(name, what) { said = said (said ? ", " : "") name " " what }
function tell(name) { if (value[1, name] != value[2, name]) say(name, value[2, name]) }

END {
    if (pc[2] == "0040006c" && value[2, "$26"] == pc[1]) { # the handler, and the instruction is at EPC
        say("cause", value[2, "$1"])
        say("bad", value[2, "$27"])
        value[2, "$1"] = value[2, "$26"] = value[2, "$27"] = value[1, "$1"]
        pc[2] = "0040005c"
        next_[2] = "00400060"
    }
    for (n = 1; n < 32; n++) tell("$" n)
    tell("hi")
    tell("lo")
    if (value[1, "$11"] != value[3, "$11"]) say("word", value[3, "$11"])
    if (pc[2] != "0040005c") say("at", pc[2])
    if (slot[2]) say("then", next_[2])
    else if (next_[2] != "00400060") say("next", next_[2])
    print said ? said : "nothing"
}
