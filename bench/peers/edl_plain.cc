// A plain reader and writer of CMX 3600 lists at 24 frames a second, as a C++ programmer would write it: the peer of `otio convert --to edl`.
// It parses events, pairs, notes and M2 lines, checks labels, lengths, order and overlaps, sorts by the record and formats the list.
// A list of more than 999 events is read and judged, and then refused as `otio` refuses it.
//     g++ -O3 -DNDEBUG edl_plain.cc -o edl_plain && ./edl_plain FILE
#include <algorithm>
#include <cctype>
#include <cstdint>
#include <cstdio>
#include <cstdlib>
#include <cstring>
#include <memory>
#include <optional>
#include <string>
#include <string_view>
#include <vector>

using std::string;
using std::string_view;

enum Channel { V, A, A2 };

struct Side {
    char reel[9] = "";
    string name;
    int32_t in = 0, out = 0;
    std::optional<int> speed;  // tenths of a frame a second
};

struct Event {
    uint32_t line;
    Channel channel;
    char kind;  // C, D, W
    int code, duration;
    Side to;
    std::shared_ptr<Side> from;
    int32_t rec_in, rec_out;
};

struct Pending {
    uint32_t line = 0;
    int number = -1, code = 0, duration = 0;
    string channels;
    char kind = 'C';
    int32_t rec_in = 0, rec_out = 0;
    Side to;
    std::shared_ptr<Side> from;
};

[[noreturn]] static void fail(uint32_t line, const char* why) {
    fprintf(stderr, "edl_plain: line %u: %s\n", line, why);
    exit(1);
}

static size_t split(string_view line, string_view* fields, size_t most) {
    size_t count = 0, at = 0;
    while (at < line.size()) {
        while (at < line.size() && (line[at] == ' ' || line[at] == '\t')) at++;
        if (at == line.size()) break;
        size_t end = at;
        while (end < line.size() && line[end] != ' ' && line[end] != '\t') end++;
        if (count == most) return most + 1;
        fields[count++] = line.substr(at, end - at);
        at = end;
    }
    return count;
}

static bool number_of(string_view text, int& value) {
    if (text.empty() || text.size() > 3) return false;
    value = 0;
    for (char c : text) {
        if (c < '0' || c > '9') return false;
        value = value * 10 + (c - '0');
    }
    return true;
}

static int32_t label_of(string_view text, uint32_t line) {
    int parts[4];
    if (text.size() != 11) fail(line, "label");
    for (int i = 0; i < 4; i++) {
        char a = text[3 * i], b = text[3 * i + 1];
        if (a < '0' || a > '9' || b < '0' || b > '9' || (i < 3 && text[3 * i + 2] != ':')) fail(line, "label");
        parts[i] = (a - '0') * 10 + (b - '0');
    }
    if (parts[0] > 23 || parts[1] > 59 || parts[2] > 59 || parts[3] > 23) fail(line, "label");
    return ((parts[0] * 60 + parts[1]) * 60 + parts[2]) * 24 + parts[3];
}

static void put_events(Pending& p, std::vector<Event>& events) {
    if (p.number < 0 || p.rec_in == p.rec_out) return;
    bool all = p.channels == "AA/V", both = p.channels == "B";
    bool picture = p.channels == "V" || both || all || p.channels == "A2/V";
    bool first = p.channels == "A" || both || all || p.channels == "AA";
    bool second = p.channels == "A2" || p.channels == "AA" || all || p.channels == "A2/V";
    for (auto [has, channel] : {std::pair{picture, V}, {first, A}, {second, A2}})
        if (has) events.push_back({p.line, channel, p.kind, p.code, p.duration, p.to, p.from, p.rec_in, p.rec_out});
}

static void put_label(string& out, int64_t frame) {
    char text[12];
    int64_t f = frame % 24, s = frame / 24;
    int parts[4] = {int(s / 3600), int(s / 60 % 60), int(s % 60), int(f)};
    for (int i = 0; i < 4; i++) {
        text[3 * i] = char('0' + parts[i] / 10), text[3 * i + 1] = char('0' + parts[i] % 10), text[3 * i + 2] = ':';
    }
    out.append(text, 11);
}

static void put_row(string& out, int number, const Side& side, Channel channel, const char* kind, int64_t rec_in, int64_t rec_out) {
    char head[64];
    snprintf(head, sizeof head, "%03d  %-8s %-5s %s ", number, side.reel, channel == V ? "V" : channel == A ? "A" : "A2", kind);
    out += head;
    for (int64_t frame : {int64_t(side.in), int64_t(side.out), rec_in}) put_label(out, frame), out += ' ';
    put_label(out, rec_out), out += '\n';
}

static void put_speed(string& out, const Side& side) {
    char text[64];
    if (!side.speed || *side.speed == 240) return;
    snprintf(text, sizeof text, "M2   %-8s %03d.%d                ", side.reel, *side.speed / 10, *side.speed % 10);
    out += text, put_label(out, side.in), out += '\n';
}

static string text_of(const string& title, const std::vector<Event>& events, const std::vector<std::pair<uint64_t, uint32_t>>& order) {
    string out;
    if (!title.empty()) out += "TITLE: " + title + "\n";
    out += "FCM: NON-DROP FRAME\n";
    int number = 1;
    for (auto [key, index] : order) {
        const Event& e = events[index];
        char kind[16] = "C       ";
        if (e.kind != 'C') {
            put_row(out, number, *e.from, e.channel, kind, e.rec_in, e.rec_in);
            if (e.kind == 'D') snprintf(kind, sizeof kind, "D    %03d", e.duration);
            else snprintf(kind, sizeof kind, "W%03d %03d", e.code, e.duration);
        }
        put_row(out, number++, e.to, e.channel, kind, e.rec_in, e.rec_out);
        if (e.kind != 'C') put_speed(out, *e.from);
        put_speed(out, e.to);
        const string& from = e.kind == 'C' ? e.to.name : e.from->name;
        if (!from.empty()) out += "* FROM CLIP NAME: " + from + "\n";
        if (e.kind != 'C' && !e.to.name.empty()) out += "* TO CLIP NAME: " + e.to.name + "\n";
    }
    return out;
}

static string_view trimmed(string_view text) {
    while (!text.empty() && (text.front() == ' ' || text.front() == '\t')) text.remove_prefix(1);
    while (!text.empty() && (text.back() == ' ' || text.back() == '\t')) text.remove_suffix(1);
    return text;
}

int main(int argc, char** argv) {
    FILE* file = argc == 2 ? fopen(argv[1], "rb") : nullptr;
    if (!file) return 2;
    string text;
    char piece[65536];
    for (size_t n; (n = fread(piece, 1, sizeof piece, file)) > 0;) text.append(piece, n);
    std::vector<Event> events;
    Pending pending;
    string title;
    bool titled = false;
    uint32_t number = 0;
    for (size_t at = 0; at < text.size();) {
        size_t end = text.find('\n', at);
        if (end == string::npos) end = text.size();
        string_view line(text.data() + at, end - at);
        at = end + 1, number++;
        if (!line.empty() && line.back() == '\r') line.remove_suffix(1);
        line = trimmed(line);
        if (line.empty()) continue;
        if (line.substr(0, 6) == "TITLE:") {
            if (!titled) title = trimmed(line.substr(6));
            titled = true;
        } else if (isdigit((unsigned char)line[0])) {
            string_view f[9];
            size_t count = split(line, f, 9);
            if (count != 8 && count != 9) fail(number, "form");
            Pending next;
            next.line = number;
            if (!number_of(f[0], next.number) || f[1].size() > 8) fail(number, "form");
            next.channels = f[2];
            next.kind = f[3][0];
            if ((next.kind == 'C') != (count == 8)) fail(number, "form");
            if (next.kind != 'C' && next.kind != 'D' && next.kind != 'W') fail(number, "form");
            if (next.kind == 'W' && !number_of(f[3].substr(1), next.code)) fail(number, "form");
            if (count == 9 && !number_of(f[4], next.duration)) fail(number, "form");
            const string_view* labels = f + count - 4;
            f[1].copy(next.to.reel, 8);
            next.to.in = label_of(labels[0], number), next.to.out = label_of(labels[1], number);
            next.rec_in = label_of(labels[2], number), next.rec_out = label_of(labels[3], number);
            if (next.to.out < next.to.in || next.rec_out < next.rec_in) fail(number, "order");
            if (next.kind != 'C') {
                if (pending.number != next.number || pending.channels != next.channels || pending.kind != 'C') fail(number, "form");
                if (pending.rec_out != next.rec_in || next.rec_out - next.rec_in < next.duration) fail(number, "order");
                next.from = std::make_shared<Side>(pending.to), next.from->in = next.from->out;
            }
            put_events(pending, events);
            pending = std::move(next);
        } else if (line.substr(0, 2) == "M2") {
            string_view f[4];
            if (split(line, f, 4) != 4 || pending.number < 0) fail(number, "form");
            int tenths = int(strtod(string(f[2]).c_str(), nullptr) * 10 + 0.5);
            label_of(f[3], number);
            if (f[1] == pending.to.reel) pending.to.speed = tenths;
            else if (pending.from && f[1] == pending.from->reel) pending.from->speed = tenths;
            else fail(number, "form");
        } else if (line.substr(0, 17) == "* FROM CLIP NAME:") {
            (pending.from ? *pending.from : pending.to).name = trimmed(line.substr(17));
        } else if (line.substr(0, 15) == "* TO CLIP NAME:") {
            pending.to.name = trimmed(line.substr(15));
        }
    }
    put_events(pending, events);
    for (const Event& e : events)
        if (!e.to.speed && e.to.out - e.to.in != e.rec_out - e.rec_in) fail(e.line, "length");
    std::vector<std::pair<uint64_t, uint32_t>> order;
    order.reserve(events.size());
    for (const Event& e : events) order.push_back({uint64_t(e.rec_in) << 8 | e.channel, uint32_t(order.size())});
    if (!std::is_sorted(order.begin(), order.end())) std::sort(order.begin(), order.end());
    int32_t ends[3] = {0, 0, 0};
    for (auto [key, index] : order) {
        const Event& e = events[index];
        if (e.rec_in < ends[e.channel]) fail(e.line, "overlap");
        ends[e.channel] = e.rec_out;
    }
    if (events.size() > 999) {
        fprintf(stderr, "edl_plain: %s: more than 999 events\n", argv[1]);
        return 1;
    }
    string out = text_of(title, events, order);
    return fwrite(out.data(), 1, out.size(), stdout) == out.size() ? 0 : 1;
}
