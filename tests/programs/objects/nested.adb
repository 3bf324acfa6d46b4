--  Records in a record: names with several selectors, parts that are passed by reference, that an object begins with,
--  and that are assigned to, also where a formal stands for one. Only the whole is controlled (RM 4.1.3, 5.2, 6.2,
--  7.6).
with Ada.Finalization; use Ada.Finalization;
with Ada.Text_IO;      use Ada.Text_IO;

procedure Nested is
   type P is record
      X : Integer;
      Y : Integer;
   end record;

   type Q is record
      A : P;
      B : P;
   end record;

   type T is new Controlled with record
      N : Integer := 1;
      C : Q;
   end record;

   overriding procedure Adjust (X : in out T);
   overriding procedure Finalize (X : in out T);

   procedure Adjust (X : in out T) is
   begin
      X.N := X.N + 1;
      Put_Line ("a");
   end Adjust;

   procedure Finalize (X : in out T) is
   begin
      Put_Line ("f" & Integer'Image (X.N) & Integer'Image (X.C.A.X) & Integer'Image (X.C.B.Y));
   end Finalize;

   procedure Set (X : in out P; Y : P; N : Integer) is
   begin
      X := Y;
      X.Y := X.Y + N;
   end Set;

   V : T;
begin
   V.C.A.X := 3;
   V.C.A.Y := 4;
   Set (V.C.B, V.C.A, 5);
   V.C.A := V.C.A;
   declare
      W : T := V;
   begin
      W.C.B := W.C.A;
      Set (W.C.A, W.C.B, 1);
      V := W;
      declare
         U : P := W.C.A;
      begin
         Put_Line ("u" & Integer'Image (U.Y));
      end;
   end;
end Nested;
