"""Times a round that gives a job up and has another one issued and killed, by `bench_jobs`: microseconds at each place of a table of
10,000 jobs and of one job, and the ratio."""

from measuring import measured

OURS = "crates/bench_jobs/out/bench_jobs"
PLACES = ("front", "spread", "back")
HELD = 10_000
ROUNDS = 1_000_000


def microseconds(place: str, held: int) -> float:
    """Of one round: those of many, less what the table costs before the first."""
    spent, before = (measured([OURS, place, str(held), str(rounds)], "/dev/null")[0] for rounds in (ROUNDS, 0))
    return (spent - before) * 1e6 / ROUNDS


def main() -> None:
    print(f"place | microseconds of {HELD} jobs | of one job | ratio")
    for place in PLACES:
        many, one = microseconds(place, HELD), microseconds(place, 1)
        print(f"{place} | {many:.2f} | {one:.2f} | {many / one:.1f}")


if __name__ == "__main__":
    main()
