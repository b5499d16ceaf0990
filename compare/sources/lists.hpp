#ifndef LISTS_HPP
#define LISTS_HPP

template <typename T>
class Stack {
    struct Node {
        T value;
        Node *next;
    };

    Node *top = nullptr;

public:
    ~Stack();

    void push(T value) { top = new Node{value, top}; }

    T pop() {
        Node *node = top;
        T value = node->value;
        top = node->next;
        delete node;
        return value;
    }

    template <typename F>
    void each(F call) const {
        for (Node *node = top; node != nullptr; node = node->next)
            call(node->value);
    }
};

int depth(const Stack<int> &stack);

#endif
