"""Makes records to try merge.py with: python3 records.py COUNT > records.jsonl. Every 100,000th lacks its items."""
import json
import sys

for number in range(1, int(sys.argv[1]) + 1):
    record = {"name": f"Reader {number}", "order": f"A/{number}", "days": number % 9 + 1}
    if number % 100_000:
        record["items"] = [{"count": number % 5 + 1, "what": "gears"}, {"count": 1, "what": "crank"}]
    print(json.dumps(record))
