#NEXUS
[ID: 4810763252]
[Param: tree]
begin trees;
   translate
      1	Homo_sapiens,
      2	Pan_troglodytes,
      3	Gorilla_gorilla,
      4	Pongo_abelii,
      5	Hylobates_lar;
   tree gen.0 = [&U] (2:1.000000e-01,(3:1.000000e-01,(4:1.000000e-01,5:1.000000e-01):1.000000e-01):1.000000e-01,1:1.000000e-01);
   tree gen.500 = [&U] (((2:1.3e-02,5:2.0e-02):1.0e-03,3:3.1e-02):2.0e-03,4:5.0e-02,1:1.1e-02);
   tree gen.1000 = [&U] ((4:1.0e-02,5:1.2e-02):3.0e-03,(3:2.0e-02,2:1.1e-02):1.0e-03,1:1.1e-02);
   tree gen.1500 = [&U] ((3:1.0e-02,(5:1.2e-02,4:3.0e-02):3.0e-03):2.0e-03,2:1.0e-02,1:1.1e-02);
end;
