--  The library's Initialize and Finalize of a pool are called by name: it stays as it is, and open (RM 7.6, 13.11).
with Ada.Text_IO; use Ada.Text_IO;
with Block_Pools; use Block_Pools;

procedure Pool_Stays_Open is
   type R is record
      N : Integer := 3;
   end record;

   P : Block_Pool (8, 2);

   type Ref is access R with Storage_Pool => P;

   A, B : Ref;
begin
   A := new R;
   Finalize (P);
   Initialize (P);
   B := new R;
   Put_Line (Integer'Image (A.N + B.N));
end Pool_Stays_Open;
