// Converts a polyhedra file by the Parma Polyhedra Library, for bench/double_description: of an H file the generators,
// of a V file the constraints, minimized, on standard output. The numbers are whole, the type is not looked at, and of
// `linearity` only how many rows it names, which are the first. Nothing in it is checked.
#include <iostream>
#include <string>
#include <ppl.hh>

using namespace Parma_Polyhedra_Library;

template <typename Row> static void print_row(const mpz_class &first, const Row &row, const mpz_class &divisor) {
    std::cout << ' ' << first;
    for (dimension_type j = 0; j < row.space_dimension(); ++j) {
        mpq_class entry(row.coefficient(Variable(j)), divisor);
        entry.canonicalize();
        std::cout << ' ' << entry;
    }
    std::cout << '\n';
}

int main() {
    std::ios::sync_with_stdio(false);
    bool points = false;
    size_t linear = 0, rows, columns;
    std::string word;
    while (std::cin >> word && word != "begin") {
        if (word == "V-representation") points = true;
        if (word == "linearity") std::cin >> linear;
    }
    std::cin >> rows >> columns >> word;
    Constraint_System constraints;
    Generator_System generators;
    for (size_t i = 0; i < rows; ++i) {
        mpz_class first, entry;
        std::cin >> first;
        Linear_Expression row;
        row.set_space_dimension(columns - 1);
        for (size_t j = 0; j + 1 < columns; ++j) {
            std::cin >> entry;
            row.set_coefficient(Variable(j), entry);
        }
        if (points) {
            generators.insert(i < linear ? Generator::line(row) : first == 0 ? ray(row) : point(row));
        } else {
            row += first;
            constraints.insert(i < linear ? row == 0 : row >= 0);
        }
    }
    C_Polyhedron polyhedron = points ? C_Polyhedron(generators) : C_Polyhedron(constraints);
    std::cout << "begin\n***** " << columns << " rational\n";
    if (points) {
        for (const Constraint &row : polyhedron.minimized_constraints()) {
            if (row.is_inequality()) print_row(row.inhomogeneous_term(), row, 1);
        }
    } else {
        for (const Generator &row : polyhedron.minimized_generators()) {
            bool is_point = row.is_point();
            print_row(is_point, row, is_point ? row.divisor() : Coefficient_one());
        }
    }
    std::cout << "end\n";
}
