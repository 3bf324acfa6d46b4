--  Division by zero raises Constraint_Error (RM 4.5.5).
procedure Zero_Divisor is
   X : Integer := 0;
begin
   X := 1 / X;
end Zero_Divisor;
