--  Two pools of one block each: a block goes back to the pool that it is of, and a new object in it begins anew
--  (RM 13.11).
with Ada.Text_IO; use Ada.Text_IO;
with Ada.Unchecked_Deallocation;
with Block_Pools; use Block_Pools;

procedure Side_By_Side is
   P, Q : Block_Pool (8, 1);

   type R is record
      N : Integer;
   end record;

   type A is access R with Storage_Pool => P;
   type B is access R with Storage_Pool => Q;

   procedure Free_A is new Ada.Unchecked_Deallocation (R, A);
   procedure Free_B is new Ada.Unchecked_Deallocation (R, B);

   X : A;
   Y : B;

   procedure Ask is
      Z : B;
   begin
      Z := new R;
      Y := Z;
      Put_Line ("made");
   exception
      when Storage_Error =>
         Put_Line ("refused");
   end Ask;
begin
   X := new R;
   X.N := 1;
   Ask;
   Y.N := 2;
   Ask;
   Free_A (X);
   Ask;
   X := new R;
   Put_Line (Integer'Image (X.N) & Integer'Image (Y.N));
   X.N := 3;
   Free_B (Y);
   Ask;
   Put_Line (Integer'Image (X.N) & Integer'Image (Y.N));
end Side_By_Side;
