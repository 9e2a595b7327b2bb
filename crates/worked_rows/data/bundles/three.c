int one(void){return 1;}int two(int x){return x+1;}int main(void){return 3;}
