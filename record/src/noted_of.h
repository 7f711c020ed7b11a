/* lr::noted<T, WORD>: an lr::atomic<T> whose operations note themselves. C++14 and later.

   `__builtin_FILE()` as a default argument is that of the caller. An operator has none: the place of
   an assignment is that of its value's conversion, and a conversion of the word itself has none. */

namespace lr {

template <class T> inline void own_record(const T *record)
{
    (void)record;
    lr_own_record(record);
}

#define LR_FROM const char *file = __builtin_FILE(), unsigned line = __builtin_LINE()
#if LR_RECORDS
template <class T> inline uint64_t worth(T *pointer)
{
    return lr_pointer_at(lr_self, reinterpret_cast<uintptr_t>(pointer));
}
template <class T> inline uint64_t worth(T value) { return static_cast<uint64_t>(value); }
#define LR_OF_THIS unsigned owner = lr_owner_at(WORD, reinterpret_cast<uintptr_t>(this))
#define LR_NOTE_THIS(step, part, value)                                                            \
    lr_note_of(LR_STEP_##step, WORD, owner, part, value, file, line)
#else
#define LR_OF_THIS ((void)0)
#define LR_NOTE_THIS(step, part, value) ((void)file, (void)line)
#endif

template <class T, int WORD> class noted {
    lr::atomic<T> word;
    using order = std::memory_order;
    static constexpr order all = std::memory_order_seq_cst;

    /* A value that is assigned, and where. */
    struct assigned {
        T value;
        const char *of;
        unsigned at;
        template <class U, class = typename std::enable_if<
                               !std::is_same<typename std::decay<U>::type, noted>::value>::type>
        assigned(U &&from, LR_FROM) noexcept : value(from), of(file), at(line)
        {
        }
    };

public:
    using value_type = T;
    constexpr noted() noexcept : word() {}
    constexpr noted(T value) noexcept : word(value) {}
    noted(const noted &) = delete;
    noted &operator=(noted &) = delete; /* no value becomes a word, to be assigned as one */

    T load(order o = all, LR_FROM) const noexcept
    {
        LR_OF_THIS;
        T found = word.load(o);
        LR_NOTE_THIS(read, LR_PART_found, worth(found));
        return found;
    }
    void store(T value, order o = all, LR_FROM) noexcept
    {
        LR_OF_THIS;
        LR_DO(uint64_t left = worth(value));
        word.store(value, o);
        LR_NOTE_THIS(write, LR_PART_left, left);
    }
    T exchange(T value, order o = all, LR_FROM) noexcept
    {
        LR_OF_THIS;
        T found = word.exchange(value, o);
        LR_NOTE_THIS(swap, LR_PART_found, worth(found));
        return found;
    }
    template <class D> T fetch_add(D value, order o = all, LR_FROM) noexcept
    {
        LR_OF_THIS;
        T found = word.fetch_add(value, o);
        LR_NOTE_THIS(add, LR_PART_found, worth(found));
        return found;
    }
    bool compare_exchange_strong(T &due, T value, order o = all, LR_FROM) noexcept
    {
        LR_OF_THIS;
        bool wrote = word.compare_exchange_strong(due, value, o);
        LR_NOTE_THIS(cas, wrote ? LR_PART_done : LR_PART_failed, 0);
        return wrote;
    }
    bool compare_exchange_strong(T &due, T value, order o, order failed, LR_FROM) noexcept
    {
        LR_OF_THIS;
        bool wrote = word.compare_exchange_strong(due, value, o, failed);
        LR_NOTE_THIS(cas, wrote ? LR_PART_done : LR_PART_failed, 0);
        return wrote;
    }
    /* One that fails though it found what was due is no step. */
    bool compare_exchange_weak(T &due, T value, order o = all, LR_FROM) noexcept
    {
        LR_OF_THIS;
        T before = due;
        bool wrote = word.compare_exchange_weak(due, value, o);
        if (wrote || due != before) LR_NOTE_THIS(cas, wrote ? LR_PART_done : LR_PART_failed, 0);
        return wrote;
    }
    bool compare_exchange_weak(T &due, T value, order o, order failed, LR_FROM) noexcept
    {
        LR_OF_THIS;
        T before = due;
        bool wrote = word.compare_exchange_weak(due, value, o, failed);
        if (wrote || due != before) LR_NOTE_THIS(cas, wrote ? LR_PART_done : LR_PART_failed, 0);
        return wrote;
    }
    operator T() const noexcept { return load(all, "an implicit load", 0); }
    T operator=(assigned from) noexcept
    {
        return store(from.value, all, from.of, from.at), from.value;
    }
};

#undef LR_FROM
#undef LR_OF_THIS
#undef LR_NOTE_THIS

} // namespace lr
