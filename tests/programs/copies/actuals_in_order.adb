--  Actuals are evaluated from left to right, where the manual leaves the order open, and each is copied as it comes
--  (RM 6.4.1).
with Ada.Text_IO; use Ada.Text_IO;

procedure Actuals_In_Order is
   N : Integer := 5;

   function Next return Integer is
   begin
      N := N + 1;
      return N;
   end Next;

   procedure P (A : Integer; K : Integer; B : in out Integer) is
   begin
      Put_Line (Integer'Image (A) & Integer'Image (K) & Integer'Image (B));
      B := B * 10;
   end P;
begin
   P (N, Next, N);
   Put_Line (Integer'Image (N));
end Actuals_In_Order;
