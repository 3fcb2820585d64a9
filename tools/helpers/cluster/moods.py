"""What a random schedule tries how often: in general, and in each of its moods."""
# How often each kind of line is tried, beside the weights of the schedule's mood.
WEIGHTS = dict(fill=6, produce=3, consume=14, force=8, stop=0.4, build=14, report=14, extend=0.6, deliver=16, again=2, job=18, reply=16,
               reply_again=1, crash_server=0.3, crash_controller=0.2, restart=6, see=5, transit=12, download=10, repair=3, retain=4, fault=0.8,
               lead_on=1.5, lead_off=0.3, tick=2, long_tick=0.6, exchange=3, settle=0.1, query=0.5, ask=0.4, route=2, piece=4, answer=4, show=0.2,
               pause=0, resume=0, force_commit=0, force_status=0)
MOODS = {
    "calm": {},
    "rivals": dict(lead_on=12, again=8, exchange=1),
    "repeats": dict(again=12, reply_again=5, long_tick=1.5),
    "faults": dict(fault=6, repair=8),
    "crashes": dict(crash_server=2, crash_controller=1.5, restart=8),
    "stops": dict(stop=4, repair=10, lead_on=6),
    "slow": dict(long_tick=6, extend=5, again=6),
    "late jobs": dict(job=3, lead_on=6, repair=10, retain=12, again=5, exchange=0.5),
    "overtaken": dict(lead_on=10, job=5, see=10, transit=16, exchange=1, again=6, deliver=20),
    "messages": dict(again=30, deliver=10, reply=5, lead_on=3, stop=1.5, extend=4, long_tick=1, exchange=1),
    "aimed faults": dict(fault=10, repair=10, retain=12, lead_on=4, job=6, stop=1.5),
    "stale walks": dict(repair=14, retain=20, lead_on=8, long_tick=3, see=10, transit=4, restart=3, job=6),
    "stale servers": dict(see=3, transit=3, download=3, retain=20, repair=3, long_tick=3, consume=20, crash_server=0.5, lead_on=5),
    "uneven": dict(force=24, consume=8, tick=8, again=8, exchange=6, long_tick=1),
    "uneven stops": dict(force=24, consume=8, tick=8, again=12, exchange=4, long_tick=1, stop=2, lead_on=4, extend=4),
    "queries": dict(ask=4, route=12, piece=14, answer=12, crash_server=1, query=2),
    "pauses": dict(pause=1, resume=2, force_commit=2, force_status=1),
}
# How often a line follows up what the line before it began.
FOLLOWS = {"calm": 0.85, "aimed faults": 0.7, "stale walks": 0.35, "faults": 0.8, "crashes": 0.8, "late jobs": 0.45, "messages": 0.3, "repeats": 0.5}
TICKS = [1, 500, 1000, 3000, 6001]
LONG_TICKS = [6001, 120_000, 120_001, 1_800_000, 1_900_000, 3_600_000]
