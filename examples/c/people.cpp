// Prints the name, the city and the year of birth of each document of a dump on standard input, in C++.
#include <bsonraw.hpp>
#include <iostream>

int main() {
    bsonraw::stream people(stdin);
    while (auto person = people.read()) {
        auto name = person->get<std::string>("name"), city = person->get<std::string>("address.city");
        std::cout << name.value_or("nobody") << ", " << city.value_or("nowhere") << ", " << person->get<int>("born").value_or(0) << '\n';
    }
}
