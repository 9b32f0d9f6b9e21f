/* A live desk for C++17: rbc.h with an owner. The header is all that there is to it.

   - A fault is an exception, and changes nothing: std::bad_alloc where there is no memory, rbc::fault otherwise. After
     either the desk goes on, and the line may be fed again.
   - A refused line is no fault: reply::refused has its code.
   - Nothing is allocated behind a line that was taken: what feed returns lies in the desk, until the next call of feed.
   - A desk can be moved, not copied. One that was moved from is closed: each call on it throws rbc::fault with
     RBC_NOT_NOW.

   rbc.h has the rules for threads, and says what each field means. live.cpp and desk.cpp are whole programs. */
#ifndef RBC_HPP
#define RBC_HPP
#include "rbc.h"

#include <cstddef>
#include <cstdint>
#include <new>
#include <stdexcept>
#include <string>
#include <string_view>
#include <utility>
#include <vector>

namespace rbc {

/* Why a call was not done: RBC_NOT_NOW and the others of rbc.h, but for RBC_MEMORY, which is std::bad_alloc. */
class fault : public std::runtime_error {
public:
    explicit fault(std::uint32_t code)
        : std::runtime_error("fault " + std::to_string(code) + " of rbc.h"), code_(code) {}
    std::uint32_t code() const noexcept { return code_; }

private:
    std::uint32_t code_;
};

/* Throws what an answer other than RBC_DONE means. */
inline void done(std::uint32_t code) {
    if (code == RBC_MEMORY)
        throw std::bad_alloc();
    if (code != RBC_DONE)
        throw fault(code);
}

/* What a call gives, with more room until there is room for all. */
template <class List, class Call> List all_of(Call call) {
    List found;
    for (std::size_t count;;) {
        done(call(found.data(), found.size(), &count));
        bool is_all = count <= found.size();
        found.resize(count);
        if (is_all)
            return found;
    }
}

inline const std::uint8_t *bytes(std::string_view text) noexcept {
    return reinterpret_cast<const std::uint8_t *>(text.data());
}
inline std::uint8_t *bytes(char *text) noexcept { return reinterpret_cast<std::uint8_t *>(text); }

/* The number of the rules, as `dispatch --version` tells it. */
inline std::uint32_t rules() noexcept { return rbc_rules(); }

/* What came of the check of a track, with the report of `dispatch check`. */
struct report {
    std::uint32_t refused; /* 0: it is a track */
    std::size_t warnings;
    std::string text;
};

/* Checks the text of a track. */
inline report check(std::string_view track) {
    rbc_report found;
    std::string text = all_of<std::string>([&](char *out, std::size_t room, std::size_t *count) {
        std::uint32_t code = rbc_check(bytes(track), track.size(), bytes(out), room, &found);
        *count = code == RBC_DONE ? found.count : 0;
        return code;
    });
    return report{found.refused, found.warnings, std::move(text)};
}

/* What a line led to: why it was refused, or its messages in the order in which they are sent. */
class reply {
public:
    reply(const rbc_answer &answer, const rbc_message *messages) noexcept
        : refused(answer.refused), count_(answer.count), messages_(messages) {}
    std::uint32_t refused; /* 0: it was accepted */
    std::size_t size() const noexcept { return count_; }
    const rbc_message *begin() const noexcept { return messages_; }
    const rbc_message *end() const noexcept { return messages_ + count_; }

private:
    std::size_t count_;
    const rbc_message *messages_;
};

/* A desk that is open until it is destroyed or moved from. */
class desk {
public:
    /* Opens a desk on the text of a track. */
    explicit desk(std::string_view track) { done(rbc_open(&raw_, bytes(track), track.size())); }
    desk(desk &&other) noexcept : raw_(std::exchange(other.raw_, closed())), out_(std::move(other.out_)) {}
    desk &operator=(desk &&other) noexcept {
        std::swap(raw_, other.raw_);
        std::swap(out_, other.out_);
        return *this;
    }
    desk(const desk &) = delete;
    desk &operator=(const desk &) = delete;
    ~desk() { rbc_close(&raw_); } /* RBC_NOT_NOW where it was moved from */

    /* Feeds one line, without its line feed. */
    reply feed(std::string_view line) {
        rbc_answer answer;
        for (;;) {
            std::uint32_t code = rbc_feed(&raw_, bytes(line), line.size(), out_.data(), out_.size(), &answer);
            if (code == RBC_DONE)
                return reply(answer, out_.data());
            if (code != RBC_ROOM)
                done(code);
            out_.resize(answer.count);
        }
    }

    /* The alarms that stand: engines ascending, those of one train by kind and number. */
    std::vector<rbc_alarm> alarms() { return list(rbc_alarms); }

    /* The trains that are enrolled: engines ascending. */
    std::vector<rbc_train> trains() { return list(rbc_trains); }

    /* The segments of the active stops: numbers ascending, those of one stop as they were given. */
    std::vector<rbc_stop_segment> stops() { return list(rbc_stops); }

    /* The active restrictions: numbers ascending. */
    std::vector<rbc_restriction> restrictions() { return list(rbc_restrictions); }

    /* What waits for an answer or an acknowledgement: engines ascending; of one train its stop identifiers first. */
    std::vector<rbc_outstanding_entry> outstanding() { return list(rbc_outstanding); }

    /* Why the desk refuses a line, in words. Empty if it would accept the line. */
    std::string explain(std::string_view line) {
        return all_of<std::string>([&](char *out, std::size_t room, std::size_t *count) {
            return rbc_explain_line(&raw_, bytes(line), line.size(), bytes(out), room, count);
        });
    }

private:
    static rbc_desk closed() noexcept { return RBC_NONE; }

    template <class T> std::vector<T> list(std::uint32_t (*call)(rbc_desk *, T *, std::size_t, std::size_t *)) {
        return all_of<std::vector<T>>(
            [&](T *out, std::size_t room, std::size_t *count) { return call(&raw_, out, room, count); });
    }

    rbc_desk raw_ = RBC_NONE;
    std::vector<rbc_message> out_;
};

} // namespace rbc
#endif
