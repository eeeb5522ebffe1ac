#!/bin/sh
# How the time of a script grows with its length: processor milliseconds for 100,000 and 200,000 lines, over ever new keys and
# over 100, each the least of six runs.
set -eu
cd "$(dirname "$0")"
printf 'open 1\n' | ../../cache_replay 4 >/dev/null
python3 - <<'MEASURE'
import os, resource, subprocess, sys, tempfile

def milliseconds(script):
    def spent():
        used = resource.getrusage(resource.RUSAGE_CHILDREN)
        return used.ru_utime + used.ru_stime
    script.seek(0)
    before = spent()
    subprocess.run(["../../cache_replay", "1000000000"], stdin=script, stdout=subprocess.DEVNULL, check=True)
    return 1000 * (spent() - before)

for keys in (0, 100):
    least = {}
    for lines in (100_000, 200_000):
        with tempfile.TemporaryFile() as script:
            subprocess.run([sys.executable, "make_script.py", str(lines), str(keys)], stdout=script, check=True)
            least[lines] = min(milliseconds(script) for _ in range(6))
        print(f"keys={keys} lines={lines} milliseconds={least[lines]:.0f}")
    print(f"keys={keys} times={least[200_000] / least[100_000]:.2f}")
print(f"cores={os.cpu_count()}")
MEASURE
