--  A recursive function raises Constraint_Error where its product is out of range, before anything is printed
--  (RM 4.5.5, 6.5).
with Ada.Finalization; use Ada.Finalization;
with Ada.Text_IO;      use Ada.Text_IO;

procedure Overflowing_Factorial is
   type T is new Controlled with record
      N : Integer := 0;
   end record;

   overriding procedure Adjust (X : in out T);
   overriding procedure Finalize (X : in out T);

   procedure Adjust (X : in out T) is
   begin
      Put_Line ("A" & Integer'Image (X.N));
   end Adjust;

   procedure Finalize (X : in out T) is
   begin
      Put_Line ("F" & Integer'Image (X.N));
   end Finalize;
begin
   declare
      function Fact (K : Integer) return Integer is
      begin
         if K < 2 then
            return 1;
         end if;
         return K * Fact (K - 1);
      end Fact;

      function G return Integer is
         A : T;
      begin
         A.N := 7;
         return A.N;
      end G;

      procedure Set (X : in out T) is
      begin
         X.N := 5;
      end Set;

      A : T;
   begin
      Put_Line ("f" & Integer'Image (Fact (13)));
      Put_Line ("g" & Integer'Image (G));
      Set (A);
   end;
end Overflowing_Factorial;
