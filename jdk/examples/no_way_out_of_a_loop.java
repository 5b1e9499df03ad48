void main() {
    int number = 0;
    while (number * number < 50) number++;      // a loop that ends early needs no turns that do nothing
    IO.println("success " + number);
}
