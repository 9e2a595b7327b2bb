int g[2];int main(void){return 0;}
