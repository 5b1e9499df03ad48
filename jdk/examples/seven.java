void main() {
    IO.println("success " + 7);
}
