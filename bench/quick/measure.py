"""Words per instruction of the IR, instructions run per unit, and the time of a translation. Called by `run`."""
import os
import re
import resource
import statistics
import subprocess
import sys

DROPPED = re.compile(r"call void @llvm\.(lifetime|assume|dbg|experimental\.noalias)")
FUEL = 256


def instructions(text):
    """How many instructions stand in the bodies of a module's text."""
    many, inside = 0, False
    for line in text.splitlines():
        if line.startswith("define"):
            inside = True
        elif line.startswith("}"):
            inside = False
        elif inside and re.match(r"  [%a-z]", line) and not DROPPED.search(line):
            many += 1
    return many


def said(command):
    return subprocess.run(command, capture_output=True, text=True).stdout


def words(listing):
    return sum(int(n) for n in re.findall(r"^@.* level \d+ words (\d+)$", listing, re.M))


def least_turns(program, command, module, calls, most, work, late):
    """The least turns at which each call isn't answered by a line that ends as late says: a search by halves over all calls at once."""
    low, high = [0] * len(calls), most
    while any(h - l > 1 for l, h in zip(low, high)):
        middle = [(l + h) // 2 or 1 for l, h in zip(low, high)]
        path = f"{work}/turns.calls"
        open(path, "w").write("".join(f"{call} turns {turns}\n" for call, turns in zip(calls, middle)))
        lines = said([program, command, module, path]).splitlines()
        for i, line in enumerate(lines):
            if re.search(late, line):
                low[i] = middle[i]
            else:
                high[i] = middle[i]
    return high


def run_of(program, module, list_of_calls, work):
    """Units and instructions that the calls of a module take. A call's instructions are known up to the fuel of a turn: its middle."""
    lines = [line.split(" turns ") for line in open(list_of_calls).read().splitlines() if line.startswith("@")]
    calls, most = [line[0] for line in lines], [int(line[1]) if line[1:] else 1000000 for line in lines]
    units = least_turns(program, "eval", module, calls, list(most), work, r" = not ended$")
    turns = least_turns(program, "run", module, calls, list(most), work, r" = fuel \d+$")
    return sum(units), sum(FUEL * n - FUEL // 2 for n in turns)


def seconds(command):
    before = resource.getrusage(resource.RUSAGE_CHILDREN).ru_utime
    subprocess.run(command, check=True, stdout=subprocess.DEVNULL)
    return resource.getrusage(resource.RUSAGE_CHILDREN).ru_utime - before


def body(number, each):
    """A function of about so many instructions: sums, products, loads, shifts, a loop and a call."""
    lines = [f"define i64 @f{number}(i64 %n, ptr %p) {{", "entry:", "  br label %loop", "loop:"]
    lines += ["  %i = phi i64 [ 0, %entry ], [ %j, %loop ]", "  %x0 = phi i64 [ %n, %entry ], [ %last, %loop ]"]
    for at in range(each - 9):
        x, y = f"%x{at}", f"%x{at + 1}"
        forms = [f"add i64 {x}, {number + at}", f"mul i64 {x}, %i", "load i64, ptr %p, align 8", f"lshr i64 {x}, 3", f"xor i64 {x}, %n"]
        lines.append(f"  {y} = {forms[at % 5]}")
    lines += [f"  %last = call i64 @f{(number * 7 + 1) % 1024}(i64 %x{each - 9}, ptr %p)", "  %j = add i64 %i, 1"]
    return lines + ["  %c = icmp ult i64 %j, %n", "  br i1 %c, label %loop, label %out", "out:", "  ret i64 %last", "}"]


def translation(program, work, each):
    """The time to translate 1,024 functions: `run` on no calls, less `eval` on none, the median of thirty pairs."""
    text = "\n".join("\n".join(body(number, each)) for number in range(1024)) + "\n"
    module, calls = f"{work}/many.ll", f"{work}/none.calls"
    open(module, "w").write(text)
    open(calls, "w").write("")
    done = subprocess.run([program, "run", module, calls], capture_output=True, text=True)
    if done.returncode:
        print(done.stderr, end="")
        return
    times = [(seconds([program, "eval", module, calls]), seconds([program, "run", module, calls])) for _ in range(30)]
    front = statistics.median(front for front, _ in times)
    spent = statistics.median(whole - front for front, whole in times)
    many = instructions(text)
    print(f"1024 functions, {many} instructions: read and verified in {front:.3f} s, translated in {spent:.3f} s, "
          f"{many / max(spent, 0.001) / 1e6:.2f} million instructions a second")


def row(name, insts, listed, units, ran):
    print(f"{name:20} {insts:12} {listed:8} {listed / insts:8.2f} {units:9} {ran:12} {ran / units:8.2f}")


def main(program, corpus, work, each):
    print(f"{'module':20} {'instructions':>12} {'words':>8} {'a piece':>8} {'units':>9} {'run':>12} {'a unit':>8}")
    total = [0, 0, 0, 0]
    # The commands of the corpus stand before the rows of the meaning.
    commands = open(f"{corpus}/../stdin").read().split("eval eval_rows.ll")[0].splitlines()
    for path in sorted(f"{corpus}/{it.split()[1]}" for it in commands if it.startswith("eval ")):
        file = os.path.basename(path)
        some = [instructions(open(path).read()), words(said([program, "dump", path])),
                *run_of(program, path, f"{corpus}/{file.split('.')[0]}.calls", work)]
        row(file[:-3], *some)
        total = [a + b for a, b in zip(total, some)]
    row("all", *total)
    translation(program, work, int(each))


main(*sys.argv[1:])
