// The search of query.eql by simdjson's on-demand reader, in the plainest way: the listing on the output.
//
// usage: by_simdjson SHARD..
#include <simdjson.h>

#include <algorithm>
#include <cstdio>
#include <ctime>
#include <map>
#include <string>
#include <string_view>
#include <tuple>
#include <vector>

using namespace simdjson;

constexpr long long SPAN = 300'000;

struct Event {
    long long time; // milliseconds since the epoch
    int shard;
    long line;
    int stage;
    std::string user;

    std::string place() const { return std::to_string(shard) + ":" + std::to_string(line); }
};

struct Chain {
    long long first = 0;
    std::string places; // empty where nothing is pending
};

// The stage, from 1 to 3, that an event fits, or 0.
int stage_of(ondemand::document& event) {
    bool login = false, process = false, network = false;
    for (auto category : event["event"]["category"].get_array()) {
        std::string_view name = category.get_string();
        login |= name == "authentication";
        process |= name == "process";
        network |= name == "network";
    }
    if (login) {
        std::string_view outcome;
        return !event["event"]["outcome"].get_string().get(outcome) && outcome == "success" ? 1 : 0;
    }
    if (process) {
        std::string_view name;
        return !event["process"]["name"].get_string().get(name) && name == "bash" ? 2 : 0;
    }
    if (network) {
        int64_t port;
        return !event["destination"]["port"].get_int64().get(port) && port == 8443 ? 3 : 0;
    }
    return 0;
}

// Milliseconds since the epoch of a time such as 2025-03-04T08:00:00.000Z.
long long time_of(std::string_view text) {
    std::tm parts{};
    int thousandths = 0;
    std::sscanf(std::string(text).c_str(), "%d-%d-%dT%d:%d:%d.%dZ", &parts.tm_year, &parts.tm_mon, &parts.tm_mday, &parts.tm_hour,
                &parts.tm_min, &parts.tm_sec, &thousandths);
    parts.tm_year -= 1900;
    parts.tm_mon -= 1;
    return timegm(&parts) * 1000LL + thousandths;
}

// The events of a shard that fit a stage.
void read_shard(const char* name, int shard, std::vector<Event>& events) {
    padded_string text = padded_string::load(name);
    ondemand::parser parser;
    ondemand::document_stream lines = parser.iterate_many(text);
    long number = 0;
    for (auto line : lines) {
        ++number;
        ondemand::document& event = line.value();
        std::string_view stamp = event["@timestamp"].get_string();
        long long time = time_of(stamp);
        int stage = stage_of(event);
        if (stage == 0) continue;
        std::string_view user = event["user"]["name"].get_string();
        events.push_back({time, shard, number, stage, std::string(user)});
    }
}

int main(int count, char** names) {
    std::vector<Event> events;
    for (int shard = 0; shard + 1 < count; ++shard) read_shard(names[shard + 1], shard, events);
    std::sort(events.begin(), events.end(), [](const Event& a, const Event& b) {
        return std::tie(a.time, a.shard, a.line) < std::tie(b.time, b.shard, b.line);
    });
    std::map<std::string, std::vector<Chain>> slots;
    long number = 0;
    for (const Event& event : events) {
        std::vector<Chain>& pending = slots[event.user];
        pending.resize(2);
        if (event.stage == 1) {
            pending[0] = {event.time, event.place()};
            continue;
        }
        Chain chain = std::exchange(pending[event.stage - 2], {});
        if (chain.places.empty() || event.time - chain.first > SPAN) continue;
        chain.places += " " + event.place();
        if (event.stage == 2) {
            pending[1] = chain;
            continue;
        }
        std::printf("%ld [\"%s\"] %s\n", ++number, event.user.c_str(), chain.places.c_str());
    }
}
