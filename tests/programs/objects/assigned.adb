--  Objects that are assigned to: the target is finalized, takes the value and is adjusted; one that is assigned to
--  itself stays as it is (RM 5.2, 7.6). An exception of its Finalize is Program_Error, and nothing is taken over
--  (RM 7.6.1).
with Ada.Finalization; use Ada.Finalization;
with Ada.Text_IO;      use Ada.Text_IO;

procedure Assigned is
   type A is new Controlled with record
      N : Integer := 0;
      M : Integer := 5;
   end record;

   overriding procedure Adjust (X : in out A);
   overriding procedure Finalize (X : in out A);

   procedure Adjust (X : in out A) is
   begin
      Put_Line ("a" & Integer'Image (X.N) & Integer'Image (X.M));
      X.M := 8;
   end Adjust;

   procedure Finalize (X : in out A) is
   begin
      Put_Line ("f" & Integer'Image (X.N));
      if X.N = 3 then
         X.M := 1 / (X.N - 3);
      end if;
      X.N := 9;
   end Finalize;

   V, W : A;
begin
   V.N := 1;
   W.N := 2;
   V := V;
   V := W;
   Put_Line (Integer'Image (V.N) & Integer'Image (V.M) & Integer'Image (W.M));
   V.N := 3;
   V := W;
end Assigned;
