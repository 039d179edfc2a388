// Looks for an order of a history's calls: it keeps the states that an order of what was answered so far can leave, all of them, or the best
// where they are too many. `histories.py` writes what it reads, and replays what it finds.
//
// It goes along the clock. A call that was sent may stand from then on; when it was answered, each state has to have it in its order.
// A call that changes nothing, or nothing that another call of the whole history can tell, stands as soon as it fits: earlier is never worse,
// since no job leaves a phase, and no number is given, while a call is left that saw it so. Any other change is made only on the way to a call
// that has to stand, since it can be made later too. A state that another one can become, by changes alone that no call needs, isn't kept.
// So where no state is left, and none was left out, there is no order.

#include <algorithm>
#include <cstdint>
#include <cstdio>
#include <cstdlib>
#include <iterator>
#include <queue>
#include <unordered_set>
#include <vector>

using std::vector;
typedef uint64_t Hash;

enum Phase { ABSENT, ISSUED, WAITING, RUNNING, FINISHED, KILLED, GONE, PHASES };
enum Kind { ISSUE = 'i', SEND = 's', RETRIEVE = 'r', KILL = 'k', KNOCK = 'n', SOLVE = 'v' };
enum Step { CALL = 'c', ENTER = 'e', CLAIM = 'l', FINISH = 'f' };

const int NONE = -1;
static size_t most_kept, most_tried;  // states that are kept at once, and that are looked at on the way to a call or a number
static bool is_all = true;            // whether none was left out
const size_t MOST_STEPS = 20000000;   // kept before those are thrown away that no state has

struct Call {
    long long sent, received;
    int client, kind, job;  // the job's number: of getJobID the one that was answered, 0 of one that nobody was given
    int phase;              // what the answer tells of the job; of send whether it was taken
    int busy, current, total;
    Hash jobs;              // of knock, what it tells of all jobs
    vector<std::pair<int, int>> seen;  // the jobs that it saw in a phase
};

struct Job {
    int issue = NONE, send = NONE, kill = NONE;  // calls: `issue` of an entered one alone
    vector<int> claimed;  // jobs that were claimed before this one was sent
};

static vector<Call> calls;
static vector<Job> jobs;
static vector<Hash> call_key;
static vector<vector<int>> left_in[PHASES];  // by job: the calls sent and not answered that saw it so
static vector<int> count_in[PHASES];         // by job: how many calls, not answered, sent or not, saw it so
static vector<vector<int>> left_of;          // by total: those that tell it
static vector<int> count_of;
static vector<int> open_calls;

static Hash mixed(Hash x) {
    x += 0x9e3779b97f4a7c15u;
    x = (x ^ (x >> 30)) * 0xbf58476d1ce4e5b9u;
    x = (x ^ (x >> 27)) * 0x94d049bb133111ebu;
    return x ^ (x >> 31);
}

static Hash held_key(int job, int phase) { return mixed(uint64_t(job) * 8 + phase); }

static bool is_taken_send(int call) { return calls[call].kind == SEND && calls[call].phase; }

struct Link { int before; int what, which; };
static vector<Link> links;

struct State {
    Hash placed = 0;  // by client, whose call that isn't answered stands
    Hash looks = 0;   // the same without sends: whoever hasn't placed one can place it later
    Hash key = 0, held = 0;
    int total = 0, waiting = 0, running = 0, link = NONE;
    vector<std::pair<int, int>> jobs;  // those that are there, by number, with their phases
    vector<int> changes;  // jobs with phases that they were brought to, ascending, but for those that all states have

    int find(int job) const {
        auto it = std::lower_bound(jobs.begin(), jobs.end(), std::make_pair(job, 0));
        return it != jobs.end() && it->first == job ? int(it - jobs.begin()) : NONE;
    }
    int phase(int job) const {
        int at = find(job);
        return at != NONE ? jobs[at].second : job > total ? ABSENT : GONE;
    }
    bool has(int call) const { return placed >> calls[call].client & 1; }
    void count(int phase, int by) {
        if (phase == WAITING) waiting += by;
        if (phase == RUNNING) running += by;
    }
    void set_phase(int job, int phase) {
        int at = find(job);
        if (at == NONE) {
            jobs.insert(std::lower_bound(jobs.begin(), jobs.end(), std::make_pair(job, 0)), {job, phase});
        } else {
            held ^= held_key(job, jobs[at].second);
            count(jobs[at].second, -1);
            if (phase == GONE) jobs.erase(jobs.begin() + at);
            else jobs[at].second = phase;
        }
        if (phase != GONE) {
            held ^= held_key(job, phase);
            count(phase, 1);
        }
    }
    void step(int what, int which) {
        links.push_back({link, what, which});
        link = int(links.size()) - 1;
    }
    void place(int call) {
        step(CALL, call);
        placed |= Hash(1) << calls[call].client;
        if (!is_taken_send(call)) looks |= Hash(1) << calls[call].client;
        key ^= call_key[call];
    }
    void change(int job, int phase) {
        int it = job * PHASES + phase;
        changes.insert(std::lower_bound(changes.begin(), changes.end(), it), it);
    }
    Hash whole() const { return key ^ held ^ mixed(total); }
};

static bool all_placed(const State &s, const vector<int> &open, int count) {
    if (int(open.size()) < count) return false;
    for (int call : open)
        if (!s.has(call)) return false;
    return true;
}
static bool is_left(const State &s, int job, int phase) { return all_placed(s, left_in[phase][job], count_in[phase][job]); }
static bool is_told(const State &s) { return all_placed(s, left_of[s.total], count_of[s.total]); }

static bool counts_fit(const State &s, const Call &c) {
    return c.total == s.total && c.current == s.waiting + s.running && c.busy == (s.running > 0);
}

static bool kill_fits(const State &s, const Call &c) {
    int phase = s.phase(c.job);
    if (c.phase == GONE) return phase == GONE || ((phase == FINISHED || phase == KILLED) && is_left(s, c.job, phase));
    if (c.phase == KILLED) return phase == ISSUED && jobs[c.job].send == NONE && is_left(s, c.job, ISSUED);
    return phase == c.phase;
}

// Whether a call that changes nothing, or nothing that others can tell, may stand here.
static bool fits(const State &s, const Call &c) {
    switch (c.kind) {
        case KNOCK: return counts_fit(s, c) && c.jobs == s.held;
        case ISSUE: return c.job == s.total + 1 && is_told(s);
        case SEND: return !c.phase && (c.job == 0 || s.phase(c.job) > ISSUED);
        case KILL: return counts_fit(s, c) && (c.job == 0 || kill_fits(s, c));
        default: return c.job == 0 || s.phase(c.job) == c.phase;
    }
}

static void stand(State &s, int call) {
    const Call &c = calls[call];
    s.place(call);
    if (c.kind == ISSUE) {
        s.total += 1;
        s.set_phase(c.job, ISSUED);
    } else if (c.kind == KILL && (c.phase == KILLED || c.phase == GONE) && s.find(c.job) != NONE) {
        s.set_phase(c.job, c.phase);
    }
}

// Places what fits as long as something does.
static void settle(State &s) {
    for (bool more = true; more;) {
        more = false;
        for (int call : open_calls)
            if (!s.has(call) && fits(s, calls[call])) {
                stand(s, call);
                more = true;
            }
    }
}

static bool is_open(const State &s, int call) {
    return call != NONE && !s.has(call) && std::find(open_calls.begin(), open_calls.end(), call) != open_calls.end();
}

static bool may_be_killed(const State &s, int job) {
    int call = jobs[job].kill;
    if (!is_open(s, call) || !is_left(s, job, WAITING)) return false;
    const Call &c = calls[call];
    return c.total == s.total && c.current == s.waiting + s.running - 1 && c.busy == (s.running > 0);
}

// Jobs with greater numbers that were claimed before can't be claimed behind.
static bool may_be_sent(const State &s, int job) {
    if (!is_left(s, job, ISSUED)) return false;
    for (int other : jobs[job].claimed)
        if (s.phase(other) < RUNNING) return false;
    return true;
}

template <typename F> static void moved(const State &s, int what, int which, int job, int phase, F take) {
    State it = s;
    if (what == CALL) it.place(which);
    else it.step(what, which);
    if (what == ENTER) it.total += 1;
    it.change(job, phase);
    it.set_phase(job, phase);
    settle(it);
    take(std::move(it));
}

// The changes that may come next, each with what then fits.
template <typename F> static void each_move(const State &s, F take) {
    bool is_first = true;
    for (auto [job, phase] : s.jobs) {
        if (phase == RUNNING && is_left(s, job, RUNNING)) moved(s, FINISH, job, job, FINISHED, take);
        if (phase == WAITING && jobs[job].kill != NONE && may_be_killed(s, job)) moved(s, CALL, jobs[job].kill, job, KILLED, take);
        if (phase == WAITING && is_first && jobs[job].kill == NONE && is_left(s, job, WAITING)) moved(s, CLAIM, job, job, RUNNING, take);
        if (phase == WAITING) is_first = false;
        if (phase == ISSUED && is_open(s, jobs[job].send) && may_be_sent(s, job)) moved(s, CALL, jobs[job].send, job, WAITING, take);
    }
    int next = s.total + 1;
    if (next < int(jobs.size()) && jobs[next].issue != NONE && is_open(s, jobs[next].issue) && is_told(s))
        moved(s, ENTER, jobs[next].issue, next, RUNNING, take);
}

// What is kept of a state to compare others with.
struct Mark {
    Hash looks;
    int total;
    vector<int> changes, waiting;
};

static Mark mark_of(const State &s) {
    Mark mark{s.looks, s.total, s.changes, {}};
    for (auto [job, phase] : s.jobs)
        if (phase == WAITING) mark.waiting.push_back(job);
    return mark;
}

static bool has(const vector<int> &changes, int it) { return std::binary_search(changes.begin(), changes.end(), it); }

// The calls in a state's order, by client, that wouldn't fit there any more.
static Hash passed(const State &s) {
    Hash found = 0;
    for (int call : open_calls) {
        const Call &c = calls[call];
        if (!s.has(call) || c.kind == ISSUE || c.kind == SEND) continue;
        bool is_so = c.job == 0 || s.phase(c.job) == c.phase;
        if (c.kind == KILL) is_so = is_so && counts_fit(s, c);
        if (c.kind == KNOCK) is_so = counts_fit(s, c) && c.jobs == s.held;
        if (!is_so) found |= Hash(1) << c.client;
    }
    return found;
}

// Whether a state with these marks can become the other one, which has passed these calls, or one with more calls in its order. A job that
// waits keeps those with greater numbers from being claimed.
static bool becomes(const Mark &a, const State &b, Hash passed_by) {
    if ((passed_by & ~a.looks) || a.total < b.total || a.changes.size() > b.changes.size()) return false;
    if (!std::includes(b.changes.begin(), b.changes.end(), a.changes.begin(), a.changes.end())) return false;
    int last = 0;
    for (int it : b.changes)
        if (it % PHASES == RUNNING && !has(a.changes, it)) last = it / PHASES;
    for (int job : a.waiting)
        if (job < last && !has(b.changes, job * PHASES + RUNNING)) return false;
    return true;
}

// States of which none can become another, with those first that have made the fewest changes.
struct Least {
    vector<State> states;
    vector<Mark> marks;

    bool has_one_for(const State &s) const {
        Hash passed_by = passed(s);
        for (const Mark &mark : marks)
            if (becomes(mark, s, passed_by)) return true;
        return false;
    }
    void take(State &&s) {
        if (has_one_for(s)) return;
        marks.push_back(mark_of(s));
        states.push_back(std::move(s));
    }
};

static bool is_less(const State &a, const State &b) { return a.changes.size() < b.changes.size(); }

// Where some have to go: those stay that have most calls in their order for the changes that they made.
static bool is_better(const State &a, const State &b) {
    return __builtin_popcountll(a.placed) - int(a.changes.size()) > __builtin_popcountll(b.placed) - int(b.changes.size());
}

static void keep_best(vector<State> &from) {
    if (from.size() <= most_kept) return;
    std::nth_element(from.begin(), from.begin() + most_kept, from.end(), is_better);
    from.resize(most_kept);
    is_all = false;
}

static vector<State> states(1);

static void opened(int call) {
    const Call &c = calls[call];
    open_calls.push_back(call);
    for (auto [job, phase] : c.seen) left_in[phase][job].push_back(call);
    if (c.kind == KILL || c.kind == KNOCK) left_of[c.total].push_back(call);
    for (State &s : states) settle(s);
}

static void taken_out(vector<int> &from, int call) { from.erase(std::find(from.begin(), from.end(), call)); }

static void closed(int call) {
    const Call &c = calls[call];
    taken_out(open_calls, call);
    for (auto [job, phase] : c.seen) {
        taken_out(left_in[phase][job], call);
        count_in[phase][job] -= 1;
    }
    if (c.kind == KILL || c.kind == KNOCK) {
        taken_out(left_of[c.total], call);
        count_of[c.total] -= 1;
    }
    std::sort(states.begin(), states.end(), is_less);
    Least kept;
    for (State &s : states) {
        s.placed &= ~(Hash(1) << c.client);
        s.looks &= ~(Hash(1) << c.client);
        s.key ^= call_key[call];
        kept.take(std::move(s));
    }
    states.swap(kept.states);
    vector<int> common = states[0].changes, both;
    for (State &s : states) {
        both.clear();
        std::set_intersection(common.begin(), common.end(), s.changes.begin(), s.changes.end(), std::back_inserter(both));
        common.swap(both);
    }
    for (State &s : states) {
        both.clear();
        std::set_difference(s.changes.begin(), s.changes.end(), common.begin(), common.end(), std::back_inserter(both));
        s.changes.swap(both);
    }
}

// Takes all states of this total out.
static vector<State> of_total(vector<State> &from, int total) {
    auto middle = std::partition(from.begin(), from.end(), [&](const State &s) { return s.total != total; });
    vector<State> found(std::make_move_iterator(middle), std::make_move_iterator(from.end()));
    from.erase(middle, from.end());
    std::sort(found.begin(), found.end(), is_less);
    return found;
}

// How many changes at least are between a state and one whose jobs are all as a knock tells.
static int distance_of_jobs(const State &s, const Call &c) {
    int sum = 0;
    auto at = s.jobs.begin();
    for (auto [job, phase] : c.seen) {
        while (at != s.jobs.end() && at->first < job) ++at;
        if (at != s.jobs.end() && at->first == job && at->second < phase) sum += phase == KILLED ? 1 : phase - at->second;
    }
    return sum;
}

// The same of one in which as many jobs wait or run as a kill tells. A job that waits has to be claimed before it can finish.
static int distance_of_counts(const State &s, const Call &c) {
    int more = s.waiting + s.running - c.current;
    return more < 0 ? -more : more + std::max(0, more - s.running);
}

// About how many changes there are to go until all open calls have stood that tell of this total: to the furthest of those that tell of all
// jobs, else to the nearest of the others, and one for each of these.
static int distance(const State &s) {
    int furthest = NONE, nearest = 0, left = 0;
    for (int call : left_of[s.total]) {
        const Call &c = calls[call];
        if (s.has(call)) continue;
        int to = c.kind == KNOCK ? distance_of_jobs(s, c) : distance_of_counts(s, c);
        if (c.kind == KNOCK) furthest = std::max(furthest, to);
        else nearest = left++ ? std::min(nearest, to) : to;
    }
    return furthest == NONE ? nearest + left : furthest;
}

// A state on the way, what it cost, and what it costs further at least.
struct Item {
    int cost, rest;
    State state;
    bool operator<(const Item &other) const {
        return cost + rest != other.cost + other.rest ? cost + rest > other.cost + other.rest : rest > other.rest;
    }
};

// Makes changes in states of one total that don't have the call, until it stands or another number is given.
static void explore(vector<State> &&from, int call, Least &found) {
    int total = from[0].total;
    std::unordered_set<Hash> met;
    std::priority_queue<Item> todo;
    for (State &s : from) {
        met.insert(s.whole());
        int rest = distance(s);
        todo.push({0, rest, std::move(s)});
    }
    while (!todo.empty()) {
        Item item = std::move(const_cast<Item &>(todo.top()));
        todo.pop();
        if (found.has_one_for(item.state)) continue;
        if (met.size() > most_tried * (found.states.empty() ? 4 : 1)) {
            is_all = false;
            return;
        }
        each_move(item.state, [&](State &&it) {
            if (!met.insert(it.whole()).second) return;
            if (it.has(call) || it.total > total) return found.take(std::move(it));
            int rest = distance(it);
            todo.push({item.cost + 1, rest, std::move(it)});
        });
    }
}

// Makes changes in the states that don't have the call, until it stands; whether any state is left.
static bool reach(int call) {
    vector<State> done, left;
    for (State &s : states) (s.has(call) ? done : left).push_back(std::move(s));
    while (!left.empty()) {
        auto first = std::min_element(left.begin(), left.end(), [](const State &a, const State &b) { return a.total < b.total; });
        Least found;
        explore(of_total(left, first->total), call, found);
        for (State &s : found.states) (s.has(call) ? done : left).push_back(std::move(s));
        keep_best(left);
    }
    keep_best(done);
    states.swap(done);
    return !states.empty();
}

// Throws the steps away that no state has.
static void gather() {
    vector<int> now(links.size(), NONE);
    for (State &s : states)
        for (int at = s.link; at != NONE && now[at] == NONE; at = links[at].before) now[at] = 0;
    size_t kept = 0;
    for (size_t at = 0; at < links.size(); at++)
        if (now[at] == 0) {
            Link l = links[at];
            if (l.before != NONE) l.before = now[l.before];
            now[at] = int(kept);
            links[kept++] = l;
        }
    links.resize(kept);
    for (State &s : states)
        if (s.link != NONE) s.link = now[s.link];
}

static bool read_all() {
    int count, numbers, most;
    if (scanf("%d %d %d", &count, &numbers, &most) != 3) return false;
    calls.resize(count);
    jobs.resize(numbers + 1);
    for (int p = 0; p < PHASES; p++) {
        left_in[p].resize(numbers + 1);
        count_in[p].resize(numbers + 1);
    }
    left_of.resize(most + 2);
    count_of.resize(most + 2);
    for (Call &c : calls) {
        char kind;
        int seen;
        if (scanf("%lld %lld %d %c %d %d %d %d %d %d", &c.sent, &c.received, &c.client, &kind, &c.job, &c.phase, &c.busy, &c.current, &c.total, &seen) != 10) return false;
        c.kind = kind;
        c.jobs = 0;
        for (int k = 0; k < seen; k++) {
            int job, phase;
            if (scanf("%d %d", &job, &phase) != 2) return false;
            c.seen.push_back({job, phase});
            c.jobs ^= held_key(job, phase);
            count_in[phase][job] += 1;
        }
        if (kind == KILL || kind == KNOCK) count_of[c.total] += 1;
        call_key.push_back(mixed(~Hash(call_key.size())));
    }
    for (int n = 1; n <= numbers; n++) {
        int claimed;
        if (scanf("%d %d %d %d", &jobs[n].issue, &jobs[n].send, &jobs[n].kill, &claimed) != 4) return false;
        jobs[n].claimed.resize(claimed);
        for (int &it : jobs[n].claimed)
            if (scanf("%d", &it) != 1) return false;
    }
    return true;
}

static void write_order(int at) {
    vector<Link> order;
    for (; at != NONE; at = links[at].before) order.push_back(links[at]);
    for (auto it = order.rbegin(); it != order.rend(); ++it) printf("%c %d\n", it->what, it->which);
}

// The words are how many states to keep at once, and how many to look at on the way to a call.
int main(int count, char **words) {
    if (count != 3 || !read_all()) return 2;
    most_kept = strtoull(words[1], nullptr, 10);
    most_tried = strtoull(words[2], nullptr, 10);
    vector<std::pair<long long, int>> clock;  // answers behind sends of the same moment
    for (int call = 0; call < int(calls.size()); call++) {
        clock.push_back({calls[call].sent * 2, call});
        clock.push_back({calls[call].received * 2 + 1, call});
    }
    std::sort(clock.begin(), clock.end());
    size_t most = 1;
    for (auto [moment, call] : clock) {
        if (!(moment & 1)) {
            opened(call);
            continue;
        }
        if (!reach(call)) {
            printf("%s %d\n", is_all ? "none" : "lost", call);
            return 0;
        }
        most = std::max(most, states.size());
        closed(call);
        if (links.size() > MOST_STEPS) gather();
    }
    printf("order %zu\n", most);
    write_order(states[0].link);
    return 0;
}
