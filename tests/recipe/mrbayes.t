#NEXUS
[ID: 4810763251]
[Param: tree{all}]
begin trees;
   translate
      1 Homo_sapiens,
      2 Pan_troglodytes,
      3 Gorilla_gorilla,
      4 Pongo_abelii
      ;
   tree gen.1000 [p = 0.013] = [&R] [&W 1/3] (((1[&height=1.0e-1]:1.2e-02,2:1.2e-02)[&prob=0.98]:5.1e-03,3:1.71e-02):2.0e-02,4:3.71e-02):0.0e+00;
   tree gen.2000 = [&R] ((1:1.0e-02,2:1.0e-02):2.5e-02,(3:3.0e-02,4:3.0e-02):5.0e-03);
   tree gen.3000 = [&R] (((3:0.010,4:0.010):0.005,1:0.015):0.010,2:0.025);
end;
