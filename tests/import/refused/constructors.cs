class P { P(int n) { } P(bool b) { } static void Main() { new P(1); new P(true); } }
