/* lr::atomic<T>: a std::atomic<T> with a point before each operation. C++14 and later.

   C++20's `wait` is not there: a thread that blocks does not give its turn back. */

namespace lr {

template <class T> class atomic {
    std::atomic<T> word;
    using order = std::memory_order;
    static constexpr order all = std::memory_order_seq_cst;
    void point(int writes) const noexcept { lr_point(&word, sizeof word, writes); }

public:
    using value_type = T;
    constexpr atomic() noexcept : word() {}
    constexpr atomic(T value) noexcept : word(value) {}
    atomic(const atomic &) = delete;
    atomic &operator=(const atomic &) = delete;

    T load(order o = all) const noexcept { return point(0), word.load(o); }
    void store(T value, order o = all) noexcept { point(1), word.store(value, o); }
    T exchange(T value, order o = all) noexcept { return point(1), word.exchange(value, o); }
    bool compare_exchange_strong(T &due, T value, order o = all) noexcept
    {
        return point(1), word.compare_exchange_strong(due, value, o);
    }
    bool compare_exchange_strong(T &due, T value, order o, order failed) noexcept
    {
        return point(1), word.compare_exchange_strong(due, value, o, failed);
    }
    bool compare_exchange_weak(T &due, T value, order o = all) noexcept
    {
        return point(1), word.compare_exchange_weak(due, value, o);
    }
    bool compare_exchange_weak(T &due, T value, order o, order failed) noexcept
    {
        return point(1), word.compare_exchange_weak(due, value, o, failed);
    }
    bool is_lock_free() const noexcept { return word.is_lock_free(); }
    operator T() const noexcept { return load(); }
    T operator=(T value) noexcept { return store(value), value; }

    /* For numbers and pointers: D is what may be added to a T. */
    template <class D> T fetch_add(D value, order o = all) noexcept
    {
        return point(1), word.fetch_add(value, o);
    }
    template <class D> T fetch_sub(D value, order o = all) noexcept
    {
        return point(1), word.fetch_sub(value, o);
    }
    template <class D> T fetch_and(D value, order o = all) noexcept
    {
        return point(1), word.fetch_and(value, o);
    }
    template <class D> T fetch_or(D value, order o = all) noexcept
    {
        return point(1), word.fetch_or(value, o);
    }
    template <class D> T fetch_xor(D value, order o = all) noexcept
    {
        return point(1), word.fetch_xor(value, o);
    }
    template <class D> T operator+=(D value) noexcept { return point(1), word += value; }
    template <class D> T operator-=(D value) noexcept { return point(1), word -= value; }
    template <class D> T operator&=(D value) noexcept { return point(1), word &= value; }
    template <class D> T operator|=(D value) noexcept { return point(1), word |= value; }
    template <class D> T operator^=(D value) noexcept { return point(1), word ^= value; }
    T operator++() noexcept { return point(1), ++word; }
    T operator--() noexcept { return point(1), --word; }
    T operator++(int) noexcept { return point(1), word++; }
    T operator--(int) noexcept { return point(1), word--; }
};

} // namespace lr
