--  Types that extend others: their objects have the inherited components first, with their defaults, and the
--  operations that they inherit or override (RM 3.4, 3.9.1, 7.6).
with Ada.Finalization; use Ada.Finalization;
with Ada.Text_IO;      use Ada.Text_IO;

procedure Extended is
   type A is new Controlled with record
      N : Integer := 4;
   end record;

   overriding procedure Initialize (X : in out A);
   overriding procedure Finalize (X : in out A);

   type B is new A with record
      M : Integer := 7;
   end record;

   type C is new B with record
      L : Boolean := True;
   end record;

   overriding procedure Finalize (X : in out C);

   procedure Initialize (X : in out A) is
   begin
      X.N := X.N + 1;
   end Initialize;

   procedure Finalize (X : in out A) is
   begin
      Put_Line ("a" & Integer'Image (X.N));
   end Finalize;

   procedure Finalize (X : in out C) is
   begin
      Put_Line ("c" & Integer'Image (X.N + X.M) & Boolean'Image (X.L));
   end Finalize;

   V : C;
   W : B;
begin
   W.M := W.N * 10;
   V.L := V.M = 7;
   Put_Line (Integer'Image (W.M));
end Extended;
