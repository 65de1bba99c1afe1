// geocom: the proved GeoCOM client, from C++17 on. A client owns its state; faults are thrown.
// Each call is that of geocom.h, which says what it does and what the caller vouches for.
#ifndef GEOCOM_HPP
#define GEOCOM_HPP

#include <algorithm>
#include <array>
#include <chrono>
#include <cstddef>
#include <cstdint>
#include <functional>
#include <limits>
#include <map>
#include <memory>
#include <optional>
#include <stdexcept>
#include <string>
#include <string_view>
#include <thread>
#include <utility>
#include <vector>

#include "geocom.h"

namespace geocom {

// A fault of a call, by its number (geocom.h lists them). Nothing has changed then.
class fault : public std::runtime_error {
public:
    explicit fault(std::uint32_t which) : std::runtime_error("geocom: fault " + std::to_string(which)), number(which) {}
    const std::uint32_t number;
};

enum class outcome : std::uint8_t { answered = GEOCOM_ANSWERED, late = GEOCOM_LATE, lost = GEOCOM_LOST };
enum class reading : std::uint8_t {
    none = GEOCOM_NONE,
    value = GEOCOM_VALUE,
    refused = GEOCOM_REFUSED,
    com_fault = GEOCOM_COM_FAULT,
    unreadable = GEOCOM_UNREADABLE
};

// The end of a request.
struct settlement {
    std::uint32_t target;
    std::uint16_t procedure;
    geocom::outcome outcome;
    geocom::reading reading;
    std::uint16_t code;
    std::string line;               // the answer's line, as it came
    std::vector<std::string> items; // the texts of its values, as they came
    std::vector<std::string> columns{}; // of a described procedure's value: the names of the first items, in order

    // The item of the column with this name, if there is one.
    std::optional<std::string> find(std::string_view name) const {
        const auto at = std::find(columns.begin(), columns.end(), name);
        return at == columns.end() ? std::nullopt : std::optional<std::string>(items[static_cast<std::size_t>(at - columns.begin())]);
    }
};

// The bytes of a text, as the calls take them: never null.
inline const std::uint8_t *bytes_of(std::string_view text) { return reinterpret_cast<const std::uint8_t *>(text.empty() ? "" : text.data()); }

// The settlement of a record, whose line and items are in this text.
inline settlement settlement_of(const geocom_settlement &r, const std::uint8_t *text) {
    settlement s{r.target, r.procedure, outcome(r.outcome), reading(r.reading), r.code, {}, {}};
    if (r.line_length != 0) s.line.assign(text, text + r.line_length);
    for (std::uint16_t i = 0; i < r.items; ++i)
        s.items.emplace_back(text + r.item_spans[i].offset, text + r.item_spans[i].offset + r.item_spans[i].length);
    return s;
}

// A procedure that isn't in the table, described by a text (geocom.h). Throws the fault of a text that describes none: 68 or 71.
class description {
public:
    struct column {
        std::string name;
        geocom_item_kind kind;
    };

    explicit description(std::string_view said) : text_(said) {
        std::array<geocom_column, GEOCOM_MOST_ITEMS> columns;
        told_ = geocom_description_read(bytes_of(text_), text_.size(), columns.data(), columns.size());
        if (told_.fault != 0) throw fault(told_.fault);
        for (std::uint32_t k = 0; k < told_.columns; ++k)
            columns_.push_back({std::string(columns[k].name, columns[k].name + columns[k].length), geocom_item_kind(columns[k].kind)});
    }

    std::uint16_t procedure() const { return static_cast<std::uint16_t>(told_.procedure); }
    const std::vector<column> &columns() const { return columns_; }

    // Whether an answer may have further values.
    bool more() const { return told_.more != 0; }

    // Throws the fault of a request's parameters: 11 to 15.
    void check(std::string_view params) const {
        const std::uint32_t number = geocom_description_params(bytes_of(text_), text_.size(), bytes_of(params), params.size());
        if (number != 0) throw fault(number);
    }

    // Reads the answer of a raw request's settlement by the description; without an answer there is nothing to read.
    void read(settlement &s) const {
        if (s.outcome == outcome::answered) read(s, s.line);
    }

    // The same from another line of a reply.
    void read(settlement &s, std::string_view line) const {
        std::array<std::uint8_t, GEOCOM_TEXT_ROOM> text;
        const geocom_answer told =
            geocom_description_reply(bytes_of(text_), text_.size(), bytes_of(line), line.size(), text.data(), text.size());
        if (told.fault != 0) throw fault(told.fault);
        s.reading = geocom::reading(told.reading);
        s.code = told.code;
        s.items.clear();
        s.columns.clear();
        for (std::uint16_t k = 0; k < told.items; ++k)
            s.items.emplace_back(text.data() + told.item_spans[k].offset, text.data() + told.item_spans[k].offset + told.item_spans[k].length);
        for (std::uint16_t k = 0; k < told.columns; ++k) s.columns.push_back(columns_[k].name);
    }

private:
    std::string text_;
    geocom_description told_;
    std::vector<column> columns_;
};

// Whether a line, without its CR LF, has a sign-on in it, which an instrument sends when it is switched on or off.
inline bool is_sign_on(std::string_view line) {
    return geocom_is_sign_on(bytes_of(line), line.size()) != 0;
}

class client {
public:
    explicit client(std::uint8_t width = GEOCOM_WINDOW) { check(geocom_client_init(&state_, width)); }

    // Synchronizes: takes bytes that came, and returns the line to write to the connection; an empty one if none is to be sent now.
    // Without bytes it is the first line, or, if nothing came in time, the same again. Requests can be sent once `is_synchronized()`.
    std::string synchronize(std::string_view bytes = "") {
        std::array<std::uint8_t, GEOCOM_LINE_ROOM> line;
        const geocom_synchronization next = geocom_client_synchronize(&state_, bytes_of(bytes), bytes.size(), line.data(), line.size());
        check(next.fault);
        is_synchronized_ = next.is_synchronized != 0;
        return std::string(line.begin(), line.begin() + next.count);
    }

    bool is_synchronized() const { return is_synchronized_; }

    // Sends a request, and returns its line, with CR LF, to write to the connection. For a line that may damage replies geocom.h has two
    // rules: `last_ended` is for the second.
    std::string send(std::uint32_t target, std::uint64_t deadline, std::uint16_t procedure, std::string_view params = "") {
        std::array<std::uint8_t, GEOCOM_LINE_ROOM> line;
        const geocom_count sent =
            geocom_client_send(&state_, target, deadline, procedure, bytes_of(params), params.size(), line.data(), line.size());
        check(sent.fault);
        return std::string(line.begin(), line.begin() + sent.count);
    }

    // Sends a request for a procedure that isn't in the table, with its parameters exactly as they are given, and returns its line. An
    // answer is text: the items of its parameters. After six of these in a row a null procedure has to be answered (geocom.h).
    std::string send_raw(std::uint32_t target, std::uint64_t deadline, std::uint16_t procedure, std::string_view params = "") {
        std::array<std::uint8_t, GEOCOM_LINE_ROOM> line;
        const geocom_count sent =
            geocom_client_send_raw(&state_, target, deadline, procedure, bytes_of(params), params.size(), line.data(), line.size());
        check(sent.fault);
        return std::string(line.begin(), line.begin() + sent.count);
    }

    // The requests that these bytes settle, in the order of sending. Lines that settle nothing are counted (`count`).
    std::vector<settlement> feed(std::string_view bytes) {
        std::vector<settlement> all;
        while (!bytes.empty()) {
            std::array<std::uint8_t, GEOCOM_TEXT_ROOM> text;
            const geocom_feed_result heard =
                geocom_client_feed(&state_, bytes_of(bytes), bytes.size(), records_.data(), records_.size(), text.data(), text.size());
            check(heard.fault);
            bytes.remove_prefix(heard.used);
            ++kinds_[heard.kind];
            if (heard.count != 0) last_ended_ = heard.count;
            for (std::uint32_t k = 0; k < heard.count; ++k) all.push_back(settlement_of(records_[k], text.data()));
        }
        return all;
    }

    // Times out the requests whose deadline is at most `now`, and returns the targets of those that hadn't timed out before.
    std::vector<std::uint32_t> expire(std::uint64_t now) {
        std::array<std::uint32_t, GEOCOM_WINDOW> targets;
        const geocom_count due = geocom_client_expire(&state_, now, targets.data(), targets.size());
        check(due.fault);
        return std::vector<std::uint32_t>(targets.begin(), targets.begin() + due.count);
    }

    // The earliest deadline of the outstanding requests that haven't timed out, if there is one.
    std::optional<std::uint64_t> next_deadline() const {
        const geocom_deadline next = geocom_client_next_deadline(&state_);
        check(next.fault);
        return next.is_set ? std::optional<std::uint64_t>(next.deadline) : std::nullopt;
    }

    // Settles all outstanding requests as lost, and returns their settlements. `synchronize` comes next.
    std::vector<settlement> restart() {
        const geocom_count lost = geocom_client_restart(&state_, records_.data(), records_.size());
        check(lost.fault);
        is_synchronized_ = false;
        last_ended_ = 1;
        std::vector<settlement> all;
        for (std::uint32_t k = 0; k < lost.count; ++k) all.push_back(settlement_of(records_[k], nullptr));
        return all;
    }

    // How many requests are outstanding, those that timed out included.
    std::uint32_t outstanding() const {
        const geocom_count outstanding = geocom_client_outstanding(&state_);
        check(outstanding.fault);
        return outstanding.count;
    }

    // How many outstanding requests haven't timed out.
    std::uint32_t current() const { return geocom_client_current(&state_); }

    // How many requests the last line settled that settled any; 1 at first, and after each restart.
    std::uint32_t last_ended() const { return last_ended_; }

    // How many calls of geocom_client_feed returned this kind.
    std::uint64_t count(geocom_kind kind) const { return kinds_[kind]; }

private:
    static void check(std::uint32_t number) {
        if (number != 0) throw fault(number);
    }

    geocom_client state_;
    bool is_synchronized_ = false;
    std::uint32_t last_ended_ = 1;
    std::array<geocom_settlement, GEOCOM_WINDOW> records_;
    std::array<std::uint64_t, GEOCOM_OVERLONG + 1> kinds_{};
};

// No instrument could be made of the scene: the fault is 41, 51, 52 or 53. `line` is the number of the faulty line, from 1 on, if the fault
// is 51; otherwise 0.
class bad_scene : public fault {
public:
    bad_scene(std::uint32_t which, std::uint32_t where) : fault(which), line(where) {}
    const std::uint32_t line;
};

// A reply with CR LF, and the moment at which it goes out, in milliseconds of the caller's clock.
struct reply {
    std::uint64_t due;
    std::string text;
};

// The instrument of a scene within the process, for tests. It has the memory of the instrument, and may be moved.
class instrument {
public:
    explicit instrument(std::string_view scene)
        : room_(new std::max_align_t[(geocom_instrument_size() + sizeof(std::max_align_t) - 1) / sizeof(std::max_align_t)]) {
        const geocom_scene_fault made = geocom_instrument_init(at(), bytes_of(scene), scene.size());
        if (made.fault != 0) throw bad_scene(made.fault, made.line);
    }

    // Takes bytes that came at the moment `now`, in milliseconds, in any pieces, and returns the replies to the lines that they end.
    std::vector<reply> replies_to(std::string_view bytes, std::uint64_t now) {
        std::vector<reply> replies;
        while (!bytes.empty()) {
            const geocom_reply heard = geocom_instrument_feed(at(), bytes_of(bytes), bytes.size(), now);
            if (heard.fault != 0) throw fault(heard.fault);
            bytes.remove_prefix(heard.used);
            if (heard.count != 0) replies.push_back({heard.due, std::string(heard.reply, heard.reply + heard.count)});
        }
        return replies;
    }

    // The texts of the replies, one after the other, at once, whatever delays the scene has.
    std::string feed(std::string_view bytes, std::uint64_t now = 0) {
        std::string all;
        for (const reply &each : replies_to(bytes, now)) all += each.text;
        return all;
    }

    // Restarts the instrument, as a new connection to `geocom serve` does.
    void restart() {
        const std::uint32_t number = geocom_instrument_restart(at());
        if (number != 0) throw fault(number);
    }

private:
    geocom_instrument *at() { return reinterpret_cast<geocom_instrument *>(room_.get()); }

    std::unique_ptr<std::max_align_t[]> room_;
};

// The request couldn't be sent in time, and wasn't: nothing answers, a new connection isn't quiet, or none can be made. Try again, which
// continues where it was.
class silent : public std::runtime_error {
public:
    explicit silent(const char *why = "geocom: the instrument isn't ready") : std::runtime_error(why) {}
};

// A sign-on came after the call was made: the instrument was switched on or off, and the request wasn't sent. Send your setup again, and
// then the request.
class restarted : public silent {
public:
    restarted() : silent("geocom: the instrument was switched on or off") {}
};

// A station over callables and a clock, which sends a request and waits for its end. It does what a session says (geocom.h), and has no rule of
// its own on the line: the session synchronizes, sends null procedures, holds back, and says when the line is dead. A callable that throws a
// std::runtime_error reports that the connection ended or failed; all else that one throws ends the connection, too, and passes through.
// One thread at a time.
class station {
public:
    // Returns what came within `milliseconds`, an empty string if nothing did. It throws if the connection ended or failed.
    using reader = std::function<std::string(std::uint64_t milliseconds)>;
    // Writes all of the bytes, or throws.
    using writer = std::function<void(std::string_view bytes)>;
    // Makes a connection, or throws.
    using opener = std::function<void()>;
    // Closes the connection, and throws nothing.
    using closer = std::function<void()>;
    // Returns a count of milliseconds that never runs backwards.
    using clock = std::function<std::uint64_t()>;
    // Returns after so many milliseconds.
    using waiter = std::function<void(std::uint64_t milliseconds)>;
    // A command of a chain: its procedure, and its parameters, as "5000,1".
    using command = std::pair<std::uint16_t, std::string>;

    // A station over connections that it makes and closes itself. `timeout`, in milliseconds, is for each null procedure, and for each request
    // whose call has no other; `settle` is the quiet time: for how long a new connection has to be quiet, and how long a pause before it is at least.
    station(reader read, writer write, opener open, closer close, std::uint64_t timeout = 10000, std::uint64_t settle = 2000,
            clock now = steady, waiter wait = rest)
        : read_(std::move(read)), write_(std::move(write)), open_(std::move(open)), close_(std::move(close)), now_(std::move(now)),
          wait_(std::move(wait)) {
        geocom_session_init(&session_, GEOCOM_WINDOW, timeout, settle);
    }

    // A station over the caller's connection. What a callable throws passes through, and `silent` is thrown if the line is dead: open a new
    // connection then, and call `reconnected`; or try again, if the connection stands.
    station(reader read, writer write, std::uint64_t timeout = 10000, clock now = steady, std::uint64_t settle = 2000)
        : station(std::move(read), std::move(write), nullptr, nullptr, timeout, settle, std::move(now)) {
        geocom_session_opened(&session_, now_());
    }

    // Synchronizes, unless it has. The first request does this by itself. Throws `silent` if that took longer than eight times the timeout
    // and the quiet time.
    void synchronize() {
        const std::uint64_t end = later(later(now_(), session_.timeout < most / 8 ? 8 * session_.timeout : most), session_.settle);
        look(end);
        for (std::uint64_t now; status().is_ready == 0; do_step(GEOCOM_WANT_SEND, now, end))
            if ((now = now_()) >= end) stop(silent());
        do_step(GEOCOM_WANT_NOTHING, now_(), 0);
    }

    // Requests a procedure of the table, and returns the settlement, at the deadline at the latest, `timeout` milliseconds after the request
    // was sent: a request that isn't settled by then is returned as lost, as no answer will be taken for it. Throws `silent` if it couldn't be
    // sent within `timeout` milliseconds of the call, `restarted` if a sign-on came before it was sent, and, at once, the fault of one that
    // can't be sent.
    settlement ask(std::uint32_t target, std::uint16_t procedure, std::string_view params = "",
                   std::optional<std::uint64_t> timeout = std::nullopt) {
        const description *by = find(procedure);
        if (by != nullptr) by->check(params);
        settlement s = exchange(by != nullptr, target, procedure, params, timeout, sign_ons(), std::nullopt);
        if (by != nullptr) by->read(s);
        return s;
    }

    // Takes what a text says of a procedure that isn't in the table (geocom.h): from now on `ask` and `measure` check its parameters and read
    // its answers, whose settlements have the columns' names; it is requested as by `ask_raw`. Throws the fault of a text that describes none.
    const description &describe(std::string_view text) {
        description made(text);
        const std::uint16_t procedure = made.procedure();
        return described_.insert_or_assign(procedure, std::move(made)).first->second;
    }

    // The same as `ask` for a procedure that isn't in the table, described or not: its answer is text.
    settlement ask_raw(std::uint32_t target, std::uint16_t procedure, std::string_view params = "",
                       std::optional<std::uint64_t> timeout = std::nullopt) {
        return exchange(true, target, procedure, params, timeout, sign_ons(), std::nullopt);
    }

    // Runs a chain: each command is sent once the one before it was answered with a value, over the same connection, after the same
    // synchronization, and if no sign-on came. It ends where one wasn't, or couldn't be sent; `silent` or `restarted` is thrown only if that
    // was the first. A procedure that isn't in the table is requested as by `ask_raw`. An answer whose return code is in `accept` is a value,
    // with this code, if its items can be read. Throws the fault of any command that can't be sent before the first one is.
    std::vector<settlement> measure(std::uint32_t target, const std::vector<command> &chain, std::optional<std::uint64_t> timeout = std::nullopt,
                                    const std::vector<std::uint16_t> &accept = {}) {
        for (const command &each : chain) {
            check(is_raw(each), target, each.first, each.second);
            if (const description *by = find(each.first)) by->check(each.second);
        }
        std::vector<settlement> all;
        const std::uint64_t known = sign_ons();
        std::optional<std::uint64_t> interruptions;
        for (const command &each : chain) {
            try {
                all.push_back(exchange(is_raw(each), target, each.first, each.second, timeout, known, interruptions));
            } catch (const silent &) {
                if (all.empty()) throw;
                break;
            }
            interruptions = sent_after_;
            if (const description *by = find(each.first)) by->read(all.back());
            if (std::find(accept.begin(), accept.end(), all.back().code) != accept.end()) read_values(all.back(), each);
            if (all.back().reading != reading::value) break;
        }
        return all;
    }

    // The callables use a new connection from now on. Outstanding requests stay so. If it has synchronized, what comes is discarded until
    // nothing came for the quiet time.
    void reconnected() {
        if (status().is_up != 0) geocom_session_closed(&session_, now_());
        geocom_session_opened(&session_, now_());
    }

    // How many sign-ons came since the first request of the caller's was sent. If a call changes it, what that call returns may have been
    // answered without your setup: send it again.
    std::uint64_t sign_ons() const { return status().sign_ons; }

    static std::uint64_t steady() {
        using std::chrono::milliseconds, std::chrono::steady_clock;
        return static_cast<std::uint64_t>(std::chrono::duration_cast<milliseconds>(steady_clock::now().time_since_epoch()).count());
    }

    static void rest(std::uint64_t milliseconds) { std::this_thread::sleep_for(std::chrono::milliseconds(milliseconds)); }

private:
    static constexpr std::uint64_t most = std::numeric_limits<std::uint64_t>::max();

    static std::uint64_t later(std::uint64_t moment, std::uint64_t wait) { return wait < most - moment ? moment + wait : most; }

    geocom_status status() const { return geocom_session_status(&session_); }

    // What describes a procedure, if a text of `describe` does.
    const description *find(std::uint16_t procedure) const {
        const auto at = described_.find(procedure);
        return at == described_.end() ? nullptr : &at->second;
    }

    // Asks a session, and returns the fault, or the length of the line.
    geocom_count line_of(geocom_session &session, bool is_raw, std::uint32_t target, std::uint64_t timeout, std::uint16_t procedure, std::string_view params) {
        return (is_raw ? geocom_session_ask_raw : geocom_session_ask)(&session, target, timeout, procedure, bytes_of(params), params.size(),
                                                                      line_.data(), line_.size());
    }

    // The fault of a request that can't be sent, whenever its turn is; else 0.
    std::uint32_t refusal(bool is_raw, std::uint32_t target, std::uint16_t procedure, std::string_view params) {
        geocom_session tried = session_; // a copy: if it is a request's turn, nothing is sent yet
        const std::uint32_t number = line_of(tried, is_raw, target, 0, procedure, params).fault;
        return number == 73 ? 0 : number;
    }

    void check(bool is_raw, std::uint32_t target, std::uint16_t procedure, std::string_view params) {
        const std::uint32_t number = refusal(is_raw, target, procedure, params);
        if (number != 0) throw fault(number);
    }

    // Whether a command's procedure isn't in the table.
    bool is_raw(const command &each) { return refusal(false, 0, each.first, each.second) == 21; }

    // Reads a refusal's line as that of a value: the same line with return code 0.
    void read_values(settlement &s, const command &sent) {
        if (s.reading != reading::refused) return;
        const std::size_t end = s.line.find_first_not_of("0123456789", s.line.find(':') + 1);
        const std::string line = "%R1P,0,0:0" + (end == std::string::npos ? "" : s.line.substr(end));
        geocom::client other(1);
        other.synchronize("%R1P,0,6:0\r\n%R1P,0,5:0\r\n%R1P,0,4:0\r\n%R1P,0,3:0\r\n%R1P,0,2:0\r\n%R1P,0,1:0\r\n%R1P,0,0:0\r\n%R1P,0,7:0\r\n");
        if (is_raw(sent)) other.send_raw(0, 0, sent.first, sent.second);
        else other.send(0, 0, sent.first, sent.second);
        std::vector<settlement> done = other.feed(line + "\r\n");
        if (done.size() != 1) return;
        if (const description *by = find(sent.first)) by->read(done[0], line);
        if (done[0].reading != reading::value) return;
        s.reading = reading::value;
        s.items = done[0].items;
        s.columns = done[0].columns;
    }

    // The connection ended, failed or is dead. Where the caller makes connections, the next one counts as made, and the caller is told.
    void disconnect() {
        if (close_) close_();
        geocom_session_closed(&session_, now_());
        if (!open_) geocom_session_opened(&session_, now_());
    }

    // Calls one of the callables over a connection. Whether the connection stands.
    template <typename Call> bool kept(Call call) {
        try {
            call();
            return true;
        } catch (const std::runtime_error &) {
            disconnect();
            if (!open_) throw;
        } catch (...) {
            disconnect();
            throw;
        }
        return false;
    }

    void write_line(std::size_t length) {
        kept([&] { write_(std::string_view(reinterpret_cast<const char *>(line_.data()), length)); });
    }

    // Reads for so many milliseconds at most. Whether something came, which the session has heard.
    bool read_bytes(std::uint64_t milliseconds) {
        std::string came;
        if (!kept([&] { came = read_(milliseconds); })) return false;
        const std::uint64_t now = now_();
        for (std::string_view left = came; !left.empty();) {
            const geocom_feed_result heard = geocom_session_feed(&session_, now, bytes_of(left), left.size(), records_.data(), records_.size(),
                                                           text_.data(), text_.size());
            if (heard.fault != 0) throw fault(heard.fault);
            left.remove_prefix(heard.used);
            if (heard.count != 0) last_ = records_[heard.count - 1];
        }
        return !came.empty();
    }

    // What came while nobody read is heard first: a sign-on, and a connection that ended, are seen before a request is lost with them.
    void look(std::uint64_t end) {
        while (status().is_up != 0 && now_() < end && read_bytes(0)) {}
    }

    // Does what is next at the moment `now`, until the moment `end` at most, and returns it. GEOCOM_SEND is left to the caller.
    std::uint32_t do_step(std::uint32_t want, std::uint64_t now, std::uint64_t end) {
        const geocom_step step = geocom_session_next(&session_, want, now, records_.data(), records_.size(), line_.data(), line_.size());
        if (step.fault != 0) throw fault(step.fault);
        const std::uint64_t until = std::min(step.until, end), left = until > now ? until - now : 0;
        if (step.act == GEOCOM_WRITE) write_line(step.bytes);
        if (step.act == GEOCOM_READ && now < end) read_bytes(left);
        if (step.act == GEOCOM_WAIT && now < end) wait_(left);
        if (step.act == GEOCOM_CLOSE) disconnect();
        if (step.act == GEOCOM_CLOSE && !open_) throw silent("geocom: the line is dead");
        if (step.act == GEOCOM_OPEN) open();
        return step.act;
    }

    void open() {
        try {
            open_();
        } catch (const std::runtime_error &) {
            geocom_session_closed(&session_, now_());
            return;
        }
        geocom_session_opened(&session_, now_());
    }

    // Ends a call whose request wasn't sent.
    template <typename Why> [[noreturn]] void stop(const Why &why) {
        do_step(GEOCOM_WANT_NOTHING, now_(), 0);
        throw why;
    }

    // Sends a request, and waits for its end. `known`: how many sign-ons the caller knew of. `interruptions`: of a chain's further request,
    // after how many the first was sent.
    settlement exchange(bool is_raw, std::uint32_t target, std::uint16_t procedure, std::string_view params,
                        std::optional<std::uint64_t> timeout, std::uint64_t known, std::optional<std::uint64_t> interruptions) {
        check(is_raw, target, procedure, params);
        const std::uint64_t patience = timeout.value_or(session_.timeout);
        std::uint64_t now = now_(), end = later(now, patience);
        look(end);
        do {
            now = now_();
            if (sign_ons() != known) stop(restarted());
            if (now >= end || interruptions.value_or(status().interruptions) != status().interruptions) stop(silent());
        } while (do_step(GEOCOM_WANT_SEND, now, end) != GEOCOM_SEND);
        const geocom_count sent = line_of(session_, is_raw, target, patience, procedure, params);
        if (sent.fault != 0) throw fault(sent.fault);
        sent_after_ = status().interruptions;
        write_line(sent.count);
        // It was sent last: so it is settled once none is outstanding.
        for (end = later(now, patience); status().outstanding != 0 && (now = now_()) < end;) do_step(GEOCOM_WANT_ANSWERS, now, end);
        const bool is_settled = status().outstanding == 0;
        do_step(GEOCOM_WANT_NOTHING, now_(), 0);
        return is_settled ? settlement_of(last_, text_.data()) : settlement{target, procedure, outcome::lost, reading::none, 0, {}, {}};
    }

    geocom_session session_;
    std::map<std::uint16_t, description> described_;
    reader read_;
    writer write_;
    opener open_;
    closer close_;
    clock now_;
    waiter wait_;
    std::uint64_t sent_after_ = 0; // after how many interruptions the last request was sent
    geocom_settlement last_{}; // the end of the request that was sent last among those that a line settled, and that line
    std::array<std::uint8_t, GEOCOM_TEXT_ROOM> text_;
    std::array<std::uint8_t, GEOCOM_LINE_ROOM> line_;
    std::array<geocom_settlement, GEOCOM_WINDOW> records_;
};

} // namespace geocom

#endif
