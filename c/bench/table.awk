# table.awk: the table of tools/bench-c, from what the programs of all placements printed, a file for each run.
# -v markdown=1 makes it a Markdown table; -v flags=.. are the compilers' flags; -v runs=.. how often each program ran.

BEGIN { FS = "\t" }

$1 == "placement" { placement = $2; if (placement >= placements) placements = placement + 1 }
$1 == "processor" { processor = $2 }
$1 == "rounds" { rounds = $2 }
$1 == "areas" { areas = $2; shortest = $3; longest = $4 }
$1 == "compiler" && NR == FNR { compiler[++plains] = $2; version[plains] = $3; sub(/ +$/, "", version[plains]) }

# name, nanoseconds of each plain program, and of the library: the least of all runs of this placement
$1 == "row" {
    if (!($2 in seen)) order[++names] = $2
    seen[$2] = 1
    for (p = 1; p <= plains + 1; p++) {
        key = $2 SUBSEP p SUBSEP placement
        if (!(key in best) || $(2 + p) < best[key]) best[key] = $(2 + p)
    }
}

END {
    print_head()
    for (i = 1; i <= names; i++) print_row(order[i])
}

function print_head(    end, unit, p) {
    end = markdown ? "\n" : ""
    unit = areas ? "areas/s" : "ns"
    printf "Processor: %s\n", processor
    for (p = 1; p <= plains; p++) printf "%sPlain C compiled by: %s %s\n", end, compiler[p], version[p]
    printf "%sFlags: %s\n", end, flags
    if (areas) printf "%s%s areas of %d to %d bytes, one after the other. Areas per second, by ", end, thousands(areas), shortest, longest
    else printf "%sNanoseconds for one call, ", end
    printf "the least of %d rounds in %d runs, as means over placements: %d.\n", rounds * runs, runs, placements
    printf "%sRatios are of times, library / plain C, as means over placements, with the least and the greatest.\n", end
    printf "Below 1 the library is faster.\n\n"
    first_cell("call")
    for (p = 1; p <= plains; p++) cell(compiler[p] ", " unit, 16)
    cell("library, " unit, 18)
    for (p = 1; p <= plains; p++) cell("ratio, " compiler[p], 19)
    printf "\n"
    if (markdown) {
        printf "|---|"
        for (p = 1; p <= 2 * plains + 1; p++) printf "---:|"
        printf "\n"
    }
}

# The mean over placements of one program's nanoseconds.
function mean(name, p,    k, sum) {
    for (k = 0; k < placements; k++) sum += best[name, p, k]
    return sum / placements
}

# The library's time by that of a plain program: mean, least and greatest.
function ratios(name, p,    k, ratio, sum, least, most) {
    for (k = 0; k < placements; k++) {
        ratio = best[name, plains + 1, k] / best[name, p, k]
        sum += ratio
        if (k == 0 || ratio < least) least = ratio
        if (k == 0 || ratio > most) most = ratio
    }
    return sprintf("%.2f (%.2f-%.2f)", sum / placements, least, most)
}

function print_row(name,    p) {
    first_cell(name)
    for (p = 1; p <= plains; p++) cell(figure(mean(name, p)), 16)
    cell(figure(mean(name, plains + 1)), 18)
    for (p = 1; p <= plains; p++) cell(ratios(name, p), 19)
    printf "\n"
}

function figure(ns) {
    return areas ? thousands(sprintf("%.0f", 1e9 / ns)) : sprintf("%.1f", ns)
}

# The digits of a number, by threes.
function thousands(digits,    out) {
    for (out = ""; length(digits) > 3; digits = substr(digits, 1, length(digits) - 3)) out = "," substr(digits, length(digits) - 2) out
    return digits out
}

function first_cell(text) {
    if (markdown) printf "| %s |", text
    else printf "%-54s", text
}

function cell(text, width) {
    if (markdown) printf " %s |", text
    else printf "%" width "s", text
}
