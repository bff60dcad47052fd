"""listing.py SECOND TOOLCHAIN PLUGIN: what ./listing takes on no records, 10,000, 100,000 and a million. Seconds are of the
whole command, as a user calls it, the fastest of five; instructions and memory are of the program that it runs."""
import glob, os, subprocess, sys, tempfile, time

second, toolchain, plugin = sys.argv[1:]
COMMAND = os.path.abspath("listing")
PROGRAM = os.path.abspath("crates/listing/out/listing")
COUNTED = ["qemu-x86_64", "-cpu", "max,-erms", "-plugin", f"{plugin},out=%s", f"{toolchain}/lib/ld-linux-x86-64.so.2", "--library-path", f"{toolchain}/lib", PROGRAM]
RUNS = 5


def seconds(records):
    began = time.time()
    with open(records, "rb") as given:
        subprocess.run([COMMAND], stdin=given, stdout=subprocess.DEVNULL, check=True)
    return time.time() - began


def instructions(records, out):
    with open(records, "rb") as given:
        subprocess.run([word.replace("%s", out) for word in COUNTED], stdin=given, stdout=subprocess.DEVNULL, check=True)
    with open(out) as counts:
        return int(counts.read().split()[-1])


def resident(records):
    """The most memory that the program has had, read while it waits for records after the last."""
    listing = subprocess.Popen([COMMAND], stdin=subprocess.PIPE, stdout=subprocess.DEVNULL)
    with open(records, "rb") as given:
        listing.stdin.write(given.read())
    listing.stdin.flush()
    most = 0
    while not most and listing.poll() is None:
        time.sleep(1)
        most = max(peak(place) for place in glob.glob("/proc/[0-9]*"))
    listing.stdin.close()
    if listing.wait():
        sys.exit("the listing failed")
    return most


def peak(place):
    try:
        with open(f"{place}/cmdline", "rb") as words, open(f"{place}/status") as status:
            if words.read().split(b"\0")[-2:] != [PROGRAM.encode(), b""]:
                return 0
            return next(int(line.split()[1]) for line in status if line.startswith("VmHWM:"))
    except OSError:
        return 0


print("| records | instructions a record | `./listing`, s | records a second | resident, KiB |")
print("|---|---|---|---|---|")
with tempfile.TemporaryDirectory() as folder:
    for count in (0, 10_000, 100_000, 1_000_000):
        records = f"{folder}/records"
        with open(records, "wb") as out:
            if count:
                subprocess.run([second, "make", "listing", "20260", str(count)], stdout=out, check=True)
        took = min(seconds(records) for _ in range(RUNS))
        counted = f"{instructions(records, f'{folder}/count') / count:,.0f}" if 0 < count < 1_000_000 else ""
        rate = f"{count / took:,.0f}" if count else ""
        print(f"| {count:,} | {counted} | {took:.2f} | {rate} | {resident(records):,} |", flush=True)
