package module;

import java.lang.invoke.MethodHandles;
import java.util.ArrayList;
import java.util.Comparator;
import java.util.List;
import java.util.Map;
import java.util.function.IntUnaryOperator;
import java.util.stream.Collectors;
import java.util.stream.IntStream;

/** What is deployed: some classes of each form, with lambdas, strings that are joined, and streams. */
public class Module {
    record Order(String customer, int amount) { }

    enum State {
        NEW, PAID,
        SENT {
            @Override
            int weight() {
                return 3;
            }
        };

        int weight() {
            return ordinal();
        }
    }

    interface Rule {
        int apply(Order order);
    }

    static final class Discount implements Rule {
        public int apply(Order order) {
            return order.amount() - order.amount() / 10;
        }
    }

    static final class Postage implements Rule {
        public int apply(Order order) {
            return order.amount() + 5;
        }
    }

    private final Hidden seen = new Hidden();

    public MethodHandles.Lookup lookup() {
        return MethodHandles.lookup();
    }

    public int run(int round) {
        List<Order> orders = new ArrayList<>();
        for (int i = 0; i < 40; i++) {
            orders.add(new Order("customer " + i % 7 + " of round " + round, i));
        }
        orders.sort(Comparator.comparing(Order::customer).thenComparing(Order::amount));
        Map<String, Integer> sums = orders.stream()
            .collect(Collectors.groupingBy(Order::customer, Collectors.summingInt(Order::amount)));
        List<Rule> rules = List.of(new Discount(), new Postage(), order -> order.amount() * 2);
        IntUnaryOperator doubled = n -> 2 * n;
        int total = doubled.applyAsInt(sums.size());
        for (Rule rule : rules) {
            total += orders.stream().mapToInt(rule::apply).sum();
        }
        for (State state : State.values()) {
            switch (state) {
                case NEW -> total += seen.next();
                default -> total += state.weight();
            }
        }
        return total + IntStream.range(0, 10).map(doubled).sum();
    }
}
